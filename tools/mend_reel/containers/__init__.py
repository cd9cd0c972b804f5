"""How files are built: what lies where in them."""
