"""Reads Groovy source as Jenkinsfiles have it, in and outside the product's language, into a tree with places.

    from groovy_reader import read
    script = read(source)
    for node in script.walk(): ...

It never refuses a source: where it finds no Groovy it keeps an `Unreadable` piece and goes on behind it. What of the tree is
outside the product's language `lint` says; this package does not judge.
"""
from .nodes import *  # noqa: F401,F403
from .reader import read  # noqa: F401
