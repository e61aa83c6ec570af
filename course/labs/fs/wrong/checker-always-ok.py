"""Prints ok whatever the image is.
Loses: checker, entries"""
print("ok")
