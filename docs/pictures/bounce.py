#!/usr/bin/env python3
"""The three pictures of examples/bounce.tal, four times as large."""
import examples

examples.show(examples.pictures.read(examples.stored("bounce.ppm")), 4, 12)
