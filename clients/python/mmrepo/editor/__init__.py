"""A reflective editor of models in the browser: `python3 -m mmrepo edit META [PATH..]`. docs/EDITOR.md is the page on it.

`server` and `connection` take requests, `calls` has the calls of a window, `model` executes them, `mirror` has a copy of the
model that is kept by notifications, `events` has the notifications for the windows, and the folder `page` has what the browser
runs.
"""
