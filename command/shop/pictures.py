"""Pictures of brackets and of lists, by matplotlib: x runs to the right, y up and z up, as on a machine seen from above and from its
front. What is drawn are a map's heights and a list's records."""
import io
import logging

import matplotlib
import numpy
from matplotlib.figure import Figure
from matplotlib.ticker import MultipleLocator

from shop import files

logging.getLogger('matplotlib').setLevel(logging.ERROR)
matplotlib.rcParams.update({'font.size': 9, 'axes.titlesize': 10, 'svg.hashsalt': 'plate'})
LOWER, UPPER, WOOD = '#1f5fa8', '#c0392b', '#8a5a2b'
MICROMETRES = 1000


def save(path, figure):
    """The figure in the format that the file's name ends in."""
    drawn = io.BytesIO()
    figure.savefig(drawn, format=path[-3:].lower(), dpi=110)
    files.write(path, drawn.getvalue())


def coordinates(records):
    """The coordinates of a list's records as x, y and z, each row by row on the map, in micrometres."""
    first = records[0][2]
    numbers = numpy.array([(record.x, record.y, record.z) for _, _, record in records])
    return numpy.moveaxis(numbers.reshape(first.rows - 2, first.columns - 2, 3), 2, 0)


def from_above(axes, title):
    axes.set(title=title, xlabel='x, mm', ylabel='y, mm')
    axes.set_aspect('equal')


def grid(values, step):
    """The edges of a picture whose points stand at whole steps."""
    rows, columns = values.shape
    return (-step / 2, (columns - 0.5) * step, -step / 2, (rows - 0.5) * step)


def bracket(path, plate_map, lower, upper):
    """The surface, how many numbers of each point differ, one row's section, and one point of it close up."""
    first = lower[0][2]
    step = first.step / MICROMETRES
    heights = numpy.frombuffer(plate_map, '<i4', first.columns * first.rows).reshape(first.rows, first.columns)
    low, high = coordinates(lower), coordinates(upper)
    figure = Figure(figsize=(10, 7.6), layout='constrained')
    (surface, points), (section, close) = figure.subplots(2, 2)

    drawn = surface.imshow(heights / MICROMETRES, origin='lower', extent=grid(heights, step), cmap='copper')
    figure.colorbar(drawn, ax=surface, label='height, mm', shrink=0.8)
    row = (first.rows - 1) // 2
    surface.axhline(row * step, color='white', linewidth=0.8, linestyle='--')
    from_above(surface, 'the surface, and the row of the section')

    inner = numpy.full(heights.shape, numpy.nan)
    inner[1:-1, 1:-1] = (low != high).sum(axis=0)
    draw_exact(figure, points, inner, step)

    along = numpy.arange(first.columns) * step
    section.fill_between(along, heights[row] / MICROMETRES, heights.min() / MICROMETRES - 1, color=WOOD, alpha=0.35, label='surface')
    for (x, _, z), colour, style, name in ((low, LOWER, '-', 'lower'), (high, UPPER, ':', 'upper')):
        across, up = x[row - 1] / MICROMETRES, z[row - 1] / MICROMETRES
        section.plot(across, up, style, marker='.', markersize=3, color=colour, label=f'{name} list')
    section.set(title=f'row {row}: the centres over the surface', xlabel='x, mm', ylabel='z, mm')
    section.legend(loc='best', fontsize=8)
    draw_close(close, low, high, row - 1)
    save(path, figure)


def draw_exact(figure, axes, differing, step):
    """Each point by how many of its numbers differ; 0 is exact."""
    colours = matplotlib.colors.ListedColormap(['#2e8b57', '#f3e3b3', '#e8b45a', '#b5651d'])
    drawn = axes.imshow(differing, origin='lower', extent=grid(differing, step), cmap=colours, vmin=-0.5, vmax=3.5)
    bar = figure.colorbar(drawn, ax=axes, ticks=range(4), shrink=0.8)
    bar.ax.set_yticklabels(['exact', '1 differs', '2 differ', '3 differ'])
    exact = int((differing == 0).sum())
    from_above(axes, f'numbers of a point that differ; exact points: {exact:,}')


def draw_close(axes, low, high, row):
    """The point of a row whose lower and upper centre lie farthest apart, in micrometres."""
    column = int((low != high).sum(axis=0)[row].argmax())
    for (x, _, z), colour, mark, name in ((low, LOWER, 'o', 'lower'), (high, UPPER, 's', 'upper')):
        axes.plot(x[row, column], z[row, column], mark, color=colour, markersize=9, fillstyle='none' if mark == 's' else 'full', label=name)
    x, z = low[0, row, column], low[2, row, column]
    axes.set(xlim=(x - 3.5, x + 4.5), ylim=(z - 3.5, z + 4.5), xlabel='x, µm', ylabel='z, µm',
             title=f'column {column + 1}, row {row + 1} close up: the bracket')
    axes.set_aspect('equal')
    for axis in (axes.xaxis, axes.yaxis):
        axis.set_major_locator(MultipleLocator(2))
        axis.set_minor_locator(MultipleLocator(1))
    axes.grid(True, which='both', linewidth=0.4)
    axes.ticklabel_format(useOffset=False, style='plain')
    axes.legend(loc='upper right', fontsize=8)


def path(name, records):
    """The cutter's path from above, and from the side: the records of each row joined in their order."""
    x, y, z = (numbers / MICROMETRES for numbers in coordinates(records))
    figure = Figure(figsize=(9, 8), layout='constrained')
    above, side = figure.subplots(2, 1, height_ratios=(2, 1))
    size = 2 if x.size > 100 else 8
    shades = matplotlib.colormaps['viridis'](numpy.linspace(0, 0.9, len(x)))
    for across, along, up, shade in zip(x, y, z, shades):
        above.plot(across, along, '.-', color=shade, linewidth=0.6, markersize=size)
        side.plot(across, up, '.-', color=shade, linewidth=0.7, markersize=size)
    from_above(above, 'centres from above; each line is a row, and moves between rows are not part of a list')
    side.set(title='from the side, first rows dark', xlabel='x, mm', ylabel='z, mm')
    save(name, figure)
