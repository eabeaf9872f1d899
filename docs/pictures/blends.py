#!/usr/bin/env python3
"""The picture of examples/blends.tal, four times as large."""
import examples

examples.show(examples.pictures.read(examples.stored("blends.ppm")), 4)
