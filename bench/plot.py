#!/usr/bin/python3
"""Draws the seconds of both sides over the number of gates, a panel for each sort of sweep. usage: bench/plot.py ROWS.csv PICTURE.png"""
import csv
import math
import sys

import matplotlib

matplotlib.use("Agg")
import matplotlib.pyplot as plt


def main(rows, picture):
    with open(rows) as file:
        table = list(csv.reader(file))
    names = list(dict.fromkeys(row[2] for row in table))
    figure, axes = plt.subplots(1, len(names), figsize=(4 * len(names), 4), sharey=True)
    for axis, name in zip(axes, names):
        part = [[float(x) for x in row[:2] + row[3:]] for row in table if row[2] == name]
        gates = [row[0] * row[1] for row in part]
        axis.loglog(gates, [row[4] for row in part], "o-", label="Rust")
        axis.loglog(gates, [row[5] for row in part], "s-", label="entry")
        axis.loglog(gates, [row[5] - row[13] for row in part], "s--", label="entry without clearing")
        scale = part[0][5] / (gates[0] * math.log(gates[0]))
        axis.loglog(gates, [scale * n * math.log(n) for n in gates], ":", color="grey", label="n log n")
        axis.set_title(name)
        axis.set_xlabel("gates")
    axes[0].set_ylabel("seconds")
    axes[0].legend()
    figure.tight_layout()
    figure.savefig(picture, dpi=80)


main(*sys.argv[1:])
