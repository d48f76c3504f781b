"""What skyq plot draws with: a map of the sky or of a field, cells of equal area, a chunk's rows, a histogram."""
import numpy as np

from skyq_lib.errors import need

WIDE, TALL = 1440, 720          # points of a map
FIELD = 60.0                    # degrees: a catalogue that is no wider is drawn flat
ENOUGH = 25                     # rows of a mean cell


def plots():
    return need("matplotlib.pyplot", "a picture")


class Cells:
    """Cells of equal height and about equal area: rings of declination, each with as many cells as its length asks for."""

    def __init__(self, side):
        self.rings = max(2, round(180 / side))
        middle = np.radians((np.arange(self.rings) + 0.5) * 180 / self.rings - 90)
        self.across = np.maximum(1, np.rint(2 * self.rings * np.cos(middle))).astype("i8")
        self.firsts = np.concatenate([[0], np.cumsum(self.across)])
        self.count = int(self.firsts[-1])
        edges = np.sin(np.radians(np.linspace(-90, 90, self.rings + 1)))
        areas = np.diff(edges) / 2 * 41252.96 / self.across
        self.areas = np.repeat(areas, self.across)
        self.area = float(np.median(self.areas))

    def of(self, ra, dec):
        """The cell of each position in degrees."""
        ring = np.clip(((dec + 90) / 180 * self.rings).astype("i8"), 0, self.rings - 1)
        return self.firsts[ring] + np.minimum((ra % 360 / 360 * self.across[ring]).astype("i8"), self.across[ring] - 1)


def extent(ra):
    """The middle of right ascensions, and how far they reach to both sides: the widest gap is left out."""
    found = np.sort(ra % 360)
    gaps = np.diff(np.append(found, found[0] + 360))
    k = int(np.argmax(gaps))
    wide = 360 - gaps[k]
    begin = found[(k + 1) % len(found)]
    return (begin + wide / 2) % 360, wide / 2


class Sky:
    """A map: the whole sky in Mollweide's projection, or a field with right ascension growing to the left."""

    def __init__(self, ra, dec):
        middle, half = extent(ra)
        low, high = float(dec.min()), float(dec.max())
        self.is_field = 2 * half * np.cos(np.radians((low + high) / 2)) <= FIELD and high - low <= FIELD and max(-low, high) < 80
        self.middle = middle if self.is_field else 0.0
        if self.is_field:
            half, rim = max(half * 1.05, 0.001), max((high - low) * 0.05, 0.001)
            self.across, self.up = np.linspace(-half, half, WIDE + 1), np.linspace(max(low - rim, -90), min(high + rim, 90), TALL + 1)
        else:
            self.across, self.up = np.linspace(-180, 180, WIDE + 1), np.linspace(-90, 90, TALL + 1)
        plt = plots()
        self.figure = plt.figure(figsize=(11, 6))
        self.axes = self.figure.add_subplot(projection=None if self.is_field else "mollweide")

    def cell_side(self, count):
        """The side of the cells, in degrees, that count rows fill well."""
        area = (np.ptp(self.up) * np.ptp(self.across) * np.cos(np.radians(self.up.mean()))) if self.is_field else 41253.0
        return float(np.clip(np.sqrt(area * ENOUGH / count), np.sqrt(area) / 150, 15.0))

    def raster(self):
        """The positions of the map's points, in degrees."""
        across, up = ((edges[1:] + edges[:-1]) / 2 for edges in (self.across, self.up))
        a, d = np.meshgrid(across, up)
        return (self.middle - a).ravel() % 360, d.ravel()

    def mesh(self, values, **more):
        across, up = (self.across, self.up) if self.is_field else (np.radians(self.across), np.radians(self.up))
        return self.axes.pcolormesh(across, up, values.reshape(TALL, WIDE), rasterized=True, **more)

    def paint(self, values, colours, label, is_log=False):
        """Colours the points by their values."""
        from matplotlib.colors import LogNorm

        mesh = self.mesh(values, cmap=colours, norm=LogNorm() if is_log else None)
        self.figure.colorbar(mesh, orientation="horizontal", shrink=0.5, pad=0.1, label=label)

    def borders(self, numbers):
        """Draws lines where the points' numbers change."""
        numbers = numbers.reshape(TALL, WIDE)
        edge = np.zeros(numbers.shape, bool)
        edge[:, 1:] |= numbers[:, 1:] != numbers[:, :-1]
        edge[1:] |= numbers[1:] != numbers[:-1]
        self.mesh(np.where(edge, 1.0, np.nan), cmap="gray", vmin=0, vmax=2, alpha=0.6)

    def finished(self, title):
        """The figure with its title, grid and labels."""
        self.axes.set_title(title, fontsize=10)
        if self.is_field:
            self.axes.set_aspect(1 / np.cos(np.radians(self.up.mean())))
            ticks = [tick for tick in self.axes.get_xticks() if abs(tick) <= self.across[-1]]
            self.axes.set_xticks(ticks, [f"{(self.middle - tick) % 360:.6g}" for tick in ticks])
            self.axes.set_xlabel("right ascension, degrees")
            self.axes.set_ylabel("declination, degrees")
        else:
            self.axes.set_xticklabels([f"{hour}h" for hour in (10, 8, 6, 4, 2, 0, 22, 20, 18, 16, 14)], fontsize=7)
        self.axes.grid(alpha=0.25, lw=0.5)
        return self.figure


def scattered(ra, dec, own, subs, overlap, title):
    """A chunk's rows, coloured by subchunk, and those of its overlap as crosses."""
    figure, axes = plots().subplots(figsize=(8, 7))
    middle, _ = extent(ra[own])
    shrunk = np.cos(np.radians(np.median(dec[own])))
    offset = ((ra - middle + 180) % 360 - 180) * shrunk
    axes.scatter(offset[own], dec[own], c=subs * 7 % 20, cmap="tab20", s=3, lw=0)
    axes.scatter(offset[overlap], dec[overlap], c="black", s=8, marker="x", lw=0.6, label=f"overlap: {len(overlap):,} rows")
    axes.invert_xaxis()
    axes.set_xlabel("offset in right ascension, degrees of arc")
    axes.set_ylabel("declination, degrees")
    axes.set_title(title, fontsize=10)
    axes.legend(loc="upper right")
    return figure


def histogram(values, edges, expected, title):
    """A histogram beside what is expected."""
    figure, axes = plots().subplots(figsize=(7, 4.2))
    axes.stairs(np.histogram(values, edges)[0], edges, label="pairs found")
    axes.plot((edges[1:] + edges[:-1]) / 2, expected, lw=1, label="rows at random, evenly")
    axes.set_xlabel("separation, arcsec")
    axes.set_ylabel(f"pairs in {edges[1] - edges[0]:.3g} arcsec")
    axes.set_title(title, fontsize=8)
    axes.set_ylim(bottom=0)
    axes.legend()
    return figure
