"""How a player called the seat: as paw, with the path of an image; or by the path of a published game, whose image is in it."""
name, game = "paw", None
