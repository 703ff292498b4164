"""`tilt-data view`: series and outputs as one HTML file, to look around in. The page is beside this file: HTML, CSS and JavaScript."""
