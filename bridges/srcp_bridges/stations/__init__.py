"""What the drivers of command stations share: what a track is to be told, the station's line, and what comes back."""
