"""What cones, pairs and ranges of columns hold, computed over all rows in doubles: no grid, no chunks, no overlap.

`check` compares the program with this. Distances are those of unit vectors, made of the degrees.
"""
import numpy as np

from skyq_lib.errors import SkyqError, need

STEP = 2**20                        # pairs of cells that are looked at together
SAMPLE = 100                        # rows that tell how many pairs there are


def vectors(ra, dec):
    """Unit vectors, a row each."""
    a, d = np.radians(ra), np.radians(dec)
    return np.column_stack([np.cos(d) * np.cos(a), np.cos(d) * np.sin(a), np.sin(d)])


def chord(arcsec):
    """The straight line of an angle, on the sphere of radius 1."""
    return 2 * np.sin(np.radians(np.asarray(arcsec) / 3600) / 2)


def arcsec_of(chords):
    return np.degrees(2 * np.arcsin(np.minimum(1.0, np.asarray(chords) / 2))) * 3600


def within(points, centre, arcsec):
    """The places of the points within an angle of one place, and of those just outside, with their angles in arcseconds."""
    # a scalar product is good to some 1e-15: it excludes what is far away, and the distance decides on the rest
    near = np.flatnonzero(points @ centre >= np.cos(np.radians(arcsec / 3600)) - 1e-9)
    return near, arcsec_of(np.linalg.norm(points[near] - centre, axis=1))


def tree_of(points):
    """scipy's tree of the points, or None where scipy is not there."""
    try:
        return need("scipy.spatial", "a tree").cKDTree(points)
    except SkyqError:
        return None


def pairs(points, arcsec, tree=None):
    """The pairs of places within an angle of each other, as two columns, the lesser place first."""
    if tree is not None:
        found = tree.query_pairs(chord(arcsec), output_type="ndarray").reshape(-1, 2)
        return np.sort(found, axis=1)
    return pairs_of_cells(points, float(chord(arcsec)))


def pairs_of_cells(points, reach):
    """The same without a tree: points in cells as wide as the reach, each cell beside its 26 neighbours."""
    cells = np.floor((points + 1) / max(reach, 2e-6)).astype("i8")
    keys = (cells[:, 0] * 2**21 + cells[:, 1]) * 2**21 + cells[:, 2]
    order = np.argsort(keys, kind="stable")
    ordered, found = keys[order], [np.zeros((0, 2), "i8")]
    offsets = [(i, j, k) for i in (-1, 0, 1) for j in (-1, 0, 1) for k in (-1, 0, 1)]
    for i, j, k in offsets:
        wanted = keys + (i * 2**21 + j) * 2**21 + k
        first, last = np.searchsorted(ordered, wanted, "left"), np.searchsorted(ordered, wanted, "right")
        left = np.flatnonzero(last > first)
        counts = (last - first)[left]
        for part in np.array_split(np.arange(len(left)), max(1, int(counts.sum()) // STEP)):
            a = np.repeat(left[part], counts[part])
            starts = np.repeat(np.cumsum(counts[part]) - counts[part], counts[part])
            b = order[np.repeat(first[left[part]], counts[part]) + np.arange(len(a)) - starts]
            is_near = (a < b) & (np.linalg.norm(points[a] - points[b], axis=1) <= reach)
            found.append(np.column_stack([a[is_near], b[is_near]]))
    return np.concatenate(found)


def pair_estimates(points, angles, draw):
    """How many pairs there are within each of some angles, from a sample of the rows."""
    sample = draw.choice(len(points), min(len(points), SAMPLE), replace=False)
    near = np.zeros(len(angles))
    for k in sample:
        products = points @ points[k]
        near += [int((products >= np.cos(np.radians(angle / 3600)) - 1e-15).sum()) - 1 for angle in angles]
    return near / max(1, len(sample)) * len(points) / 2
