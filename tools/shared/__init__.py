"""What the scripts of tools/ share. Each of them puts tools/ on its path, and then imports from here."""
