"""What a picture of a repair is made of: its layout, and the lines of the sources."""
