"""The track plan: how a drawing is read, the routes over it, and the program that orders them."""
