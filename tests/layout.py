"""The numbers of docs/SPEC.md: how many of each thing there are, and where the parts of a site stand."""
SLOTS = 256
LABELS = 16
NAMES = 48
VARIABLES = 16
GENERAL = 4  # links 0 to 3, with a set of targets for each slot
FUNCTIONAL = 4  # links 4 to 7, with one target for each slot
LINKS = GENERAL + FUNCTIONAL
LINK_WAYS = 2 * LINKS  # the ways along the links and against them
EVERYWHERE = LINK_WAYS  # the way behind them
WAYS = EVERYWHERE + 1

SET_BYTES = SLOTS // 8
CHAIN_BYTES = SLOTS
LINK_BYTES = SLOTS * SET_BYTES
LABELS_AT = SET_BYTES
NAMES_AT = LABELS_AT + LABELS * SET_BYTES
TARGETS_AT = NAMES_AT + NAMES
ROWS_AT = TARGETS_AT + FUNCTIONAL * SLOTS
SITE_BYTES = ROWS_AT + GENERAL * LINK_BYTES

NODE_BYTES = 6
NODES = 2048
TABLE_BYTES = NODES * NODE_BYTES
EDIT_BYTES = 4
EDITS = 64
SHEET_BYTES = EDITS * EDIT_BYTES
OPERATIONS = 9
EDITIONS = (1, 2)  # of sheets
NUMBER_BYTES = 4  # a distance, an edition, a limit
TRAILER_BYTES = 4 * NUMBER_BYTES  # three distances and the edition
FILE_BYTES = 65536
HIGHEST_LIMIT = 1000000  # on the rounds of a list


def label_at(label):
    return LABELS_AT + SET_BYTES * label


def row_at(link, slot):
    """Where the targets of a slot stand for a link 0 to 3."""
    return ROWS_AT + LINK_BYTES * link + SET_BYTES * slot


def target_at(link, slot):
    """Where the target of a slot stands for a link 4 to 7."""
    return TARGETS_AT + SLOTS * (link - GENERAL) + slot
