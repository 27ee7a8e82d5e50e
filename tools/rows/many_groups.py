"""The image of a pool whose uberblocks went once round their slots."""

from tools.model.layout import AREA, BLOCK, DATA, DIRECTORY, INDIRECT, ROOT, data_number
from tools.model.pool_bytes import Pointer, check_of, config, numbers, seal, uberblock
from tools.model.pool_image import Image

GUID, GROUP = 77, 9


def put_tree(image):
    """The tree of group 9, which has `abcd` as object 1: one block of each kind, behind the first one, which is the
    log's. Returns the pointer to its root."""
    address, pointer = AREA, Pointer(0, 0, b"")
    for kind, number, payload in [
        (DATA, data_number(1, 0), lambda _: b"abcd"),
        (INDIRECT, 1, lambda below: below),
        (DIRECTORY, 0, lambda below: bytes(64) + numbers(1, 4) + below),
        (ROOT, 0, lambda below: below),
    ]:
        address += BLOCK
        block = seal(kind, GUID, GROUP, number, payload(pointer.bytes()))
        image.put(address, block)
        pointer = Pointer(address, GROUP, check_of(block))
    return pointer


def many_groups(size, made, imported, synced, groups):
    """A pool that was created and imported, after a sync with an object and the syncs of these empty groups. Each of the
    three has its moment."""
    image = Image(bytearray(size))
    image.put_configs(config(GUID, 8, size, b"tank"))
    image.put_uberblock(uberblock(4, GUID, moment=made))
    image.put_uberblock(uberblock(8, GUID, import_number=1, log_address=AREA, moment=imported))
    root = put_tree(image)
    for group in [GROUP, *groups]:
        image.put_uberblock(uberblock(group, GUID, root, 1, AREA, moment=synced))
    return image
