"""Pictures of images: the model of what a picture shows, and its three forms, which are SVG, a page, and letters on a terminal."""
