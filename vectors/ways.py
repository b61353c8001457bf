"""Which ways a call goes, told from the zone before it as documents 01 and 02 have it.

The check uses it to see that the lists of ways.calls and refusals.calls do
what their names say, and that no way is left out.
"""

from typing import List, Optional, Sequence, Set, Tuple

from nafelode import Bay, Block, BlockType, Zone

WAYS = (
    "initialize_free initialize_no_free initialize_no_master "
    "relocatable_exact relocatable_rest relocatable_compacted "
    "relocatable_later_hole relocatable_tightest_hole relocatable_equal_holes "
    "relocatable_higher_bay "
    "masters_none masters_no_block masters_up masters_down masters_both_ways "
    "masters_exact masters_rest masters_just_32 "
    "masters_higher_bay masters_compacted masters_tightest_hole "
    "fixed_exact fixed_rest fixed_compacted fixed_lower_bay "
    "free_handle_alone free_handle_left free_handle_right free_handle_both "
    "free_pointer_alone free_pointer_left free_pointer_right free_pointer_both "
    "free_pointer_is_end free_pointer_is_next "
    "resize_same resize_cut resize_cut_merged "
    "resize_grow_exact resize_grow_rest resize_layout "
    "resize_move_up resize_move_up_compacted "
    "resize_move_down resize_move_down_compacted resize_move_lowest "
    "resize_move_tightest_hole resize_move_equal_holes "
    "resize_old_alone resize_old_left resize_old_right resize_old_both "
    "compact_nothing compact_slides compact_bays "
    "enlarge_none enlarge_free_last enlarge_used_last enlarge_no_block "
    "shrink_none shrink_free_last shrink_compacted "
    "page_exact page_rest page_compacted page_later_hole page_tightest_hole "
    "page_equal_holes page_higher_bay "
    "page_drops_one page_drops_several page_drops_apart page_drops_other_bay "
    "page_drops_smaller_name page_drops_larger_stamp page_passes_lock page_spares_dirty "
    "page_clock_round use_page use_clock_round "
    "drop_page_alone drop_page_left drop_page_right drop_page_both drop_page_flagged "
    "empty_bay handle_order high_handle roster_order").split()

# Calls that lay blocks down anew; a write changes data alone.
CHANGING = ("allocate_relocatable", "allocate_fixed", "free_handle",
            "free_pointer", "resize", "compact", "enlarge", "shrink",
            "create_page", "use_page", "drop_page")

# "Refused calls", read as: which calls can give which number.
STRETCH = ["size", "read", "write"]
BY_NAME = ["use_page", "set_dirty", "clear_dirty", "set_lock", "clear_lock",
           "drop_page"]
REFUSALS = {
    1: ["allocate_relocatable", "allocate_fixed", "free_handle",
        "free_pointer", "resize", *STRETCH, "compact", "sum", "length",
        "enlarge", "shrink", "roster", "census", "walker_step",
        "create_page", *BY_NAME],
    2: ["initialize"],
    3: ["allocate_relocatable", "allocate_fixed", "resize", "create_page"],
    4: ["allocate_relocatable"],
    5: ["allocate_relocatable", "allocate_fixed", "resize", "create_page"],
    6: ["free_handle", "resize", *STRETCH],
    7: ["free_pointer", *STRETCH],
    8: ["read", "write"],
    9: ["enlarge"],
    10: ["read", "write", "roster"],
    11: ["create_page"],
    12: ["create_page"],
    13: [*BY_NAME, *STRETCH],
    14: ["census"],
}
VIEW_TOO = (1, 6, 7, 8, 13)  # a view carries no number; it is refused for these


# "eight masters are added: the first bay gives up 32 bytes" (document 02, U3).
ADDED = 32


def up4(k: int) -> int:
    return -(-k // 4) * 4


def free(block: Optional[Block]) -> bool:
    return block is not None and block.type is BlockType.FREE


def place(bay: Bay, need: int) -> Set[str]:
    """How a block finds its place in a bay whose sum reaches the need: "the smallest
    free block that is big enough, the lowest of equals" (document 02, U2)."""
    holes = [block.size for block in bay.blocks if free(block)]
    fitting = [hole for hole in holes if hole >= need]
    if not fitting:
        return {"compacted"}
    tightest = min(fitting)
    found = {"exact" if tightest == need else "rest"}
    if holes[0] < need:
        found.add("later_hole")
    if fitting[0] > tightest:
        found.add("tightest_hole")
    if fitting.count(tightest) > 1:
        found.add("equal_holes")
    return found


def merges(zone: Zone, block: Block) -> str:
    at = zone.blocks.index(block)
    left = at > 0 and free(zone.blocks[at - 1])
    right = at + 1 < len(zone.blocks) and free(zone.blocks[at + 1])
    return {(0, 0): "alone", (1, 0): "left", (0, 1): "right",
            (1, 1): "both"}[left, right]


def _masters(zone: Zone, need: int) -> Set[str]:
    """An allocation that finds the chain empty: where the first bay's blocks go,
    and where the new one (document 02, U3)."""
    first, before, goes = zone.bays[0], 0, set()
    for block in first.blocks:
        if free(block):
            before += block.size
        else:
            goes.add("up" if before < ADDED else "down" if before > ADDED else "stays")
    found = {"masters_both_ways"} if {"up", "down"} <= goes else {"masters_" + way for way in goes - {"stays"}}
    if not goes:
        found.add("masters_no_block")
    if zone.m == 0:
        found.add("masters_none")
    left = first.sum - ADDED
    if left == 0:
        found.add("masters_just_32")
    if left >= need:
        return found | {"masters_exact" if left == need else "masters_rest"}
    bay = next(bay for bay in zone.bays[1:] if bay.sum >= need)
    found |= {"masters_" + way for way in place(bay, need) & {"compacted", "tightest_hole"}}
    return found | {"masters_higher_bay"}


def _relocatable(zone: Zone, c: int) -> Set[str]:
    need = up4(4 + c)
    if not zone.chain:
        return _masters(zone, need)
    bay = next(bay for bay in zone.bays if bay.sum >= need)
    found = {"relocatable_" + way for way in place(bay, need)}
    if bay is not zone.bays[0]:
        found.add("relocatable_higher_bay")
    if list(zone.chain) != sorted(zone.chain):
        found.add("handle_order")
    if zone.chain[0] > 255:
        found.add("high_handle")
    return found


def _fixed(zone: Zone, c: int) -> Set[str]:
    need = up4(4 + c)
    bay = [bay for bay in zone.bays if bay.sum >= need][-1]
    last = bay.blocks[-1] if bay.blocks else None
    if free(last) and last.size >= need:
        found = {"fixed_exact" if last.size == need else "fixed_rest"}
    else:
        found = {"fixed_compacted"}
    return found if bay is zone.bays[-1] else found | {"fixed_lower_bay"}


def _free_pointer(zone: Zone, pointer: int) -> Set[str]:
    """A block without data has its own end for a pointer (document 02, U6)."""
    block = zone.by_pointer(pointer)
    found = {"free_pointer_" + merges(zone, block)}
    if pointer == block.end:
        found.add("free_pointer_is_" + ("end" if pointer == zone.length else "next"))
    return found


def _resize(zone: Zone, handle: int, c: int) -> Set[str]:
    block, a = zone.by_handle(handle), up4(c)
    more = a - block.data_size
    own = next(bay for bay in zone.bays if block in bay.blocks)
    after = next((b for b in own.blocks if b.offset == block.end), None)
    if more == 0:
        return {"resize_same"}
    if more < 0:
        return {"resize_cut_merged" if free(after) else "resize_cut"}
    if own.sum >= more:
        if free(after) and after.size >= more:
            return {"resize_grow_" + ("exact" if after.size == more else "rest")}
        return {"resize_layout"}
    others = [bay for bay in zone.bays if bay.sum >= 4 + a]
    move = "resize_move_" + ("up" if others[0].start > own.start else "down")
    taken = place(others[0], 4 + a)
    if "compacted" in taken:
        move += "_compacted"
    found = {move, "resize_old_" + merges(zone, block)}
    found |= {"resize_move_" + way for way in taken & {"tightest_hole", "equal_holes"}}
    return found | {"resize_move_lowest"} if len(others) > 1 else found


def _turn(block: Block) -> Tuple[int, int]:
    """A page's place in the order of dropping (document 02, U5)."""
    return -block.page.age, block.page.name


def _create(zone: Zone, need: int) -> Set[str]:
    bay = next((bay for bay in zone.bays if bay.sum >= need), None)
    if bay is None:
        return _drops(zone, need)
    found = {"page_" + way for way in place(bay, need)}
    return found if bay is zone.bays[0] else found | {"page_higher_bay"}


def _drops(zone: Zone, need: int) -> Set[str]:
    """A create for which pages are dropped: which, and which are not."""
    pages = sorted((block for block in zone.blocks if block.page), key=_turn)
    order = [block for block in pages if not block.page.lock]
    gone: List[Block] = []
    while max(_sums(zone, gone)) < need:
        gone.append(order[len(gone)])
    sums = _sums(zone, gone)
    bay = zone.bays[sums.index(max(sums))]
    found = {"page_drops_" + ("one" if len(gone) == 1 else "several")}
    if _longest(bay, gone) < need:
        found.add("page_drops_apart")
    if any(block not in bay.blocks for block in gone):
        found.add("page_drops_other_bay")
    if any(block.page.lock and _turn(block) < _turn(gone[-1]) for block in pages):
        found.add("page_passes_lock")
    for block in order[len(gone):]:
        if block.page.age == gone[-1].page.age and block.offset < gone[-1].offset:
            found.add("page_drops_smaller_name")
        if block.page.stamp < gone[-1].page.stamp:
            found.add("page_drops_larger_stamp")
        if block.page.dirty:
            found.add("page_spares_dirty")
    return found


def _sums(zone: Zone, gone: Sequence[Block]) -> List[int]:
    """Each bay's sum without these pages."""
    return [bay.sum + sum(block.size for block in gone if block in bay.blocks)
            for bay in zone.bays]


def _longest(bay: Bay, gone: Sequence[Block]) -> int:
    """The longest run of free blocks and of these pages."""
    longest = run = 0
    for block in bay.blocks:
        run = run + block.size if free(block) or block in gone else 0
        longest = max(longest, run)
    return longest


def _page(zone: Zone, call: str, name: int, c: int) -> Set[str]:
    if call == "drop_page":
        block = zone.by_name(name)
        found = {"drop_page_" + merges(zone, block)}
        return found | {"drop_page_flagged"} if block.page.flags else found
    found = {"use_page"} if call == "use_page" else _create(zone, up4(8 + c))
    if zone.clock == 255:
        found.add("use_clock_round" if call == "use_page" else "page_clock_round")
    return found


def slides(bay: Bay) -> bool:
    """Whether a relocatable block or a page stands behind a free one."""
    return any(free(block) and block is not bay.blocks[-1]
               for block in bay.blocks)


def _whole_zone(zone: Zone, call: str, k: int) -> Set[str]:
    last = zone.blocks[-1] if zone.blocks else None
    if call == "compact":
        bays = sum(map(slides, zone.bays))
        return {"compact_" + ("nothing", "slides", "bays")[min(bays, 2)]}
    if call == "enlarge":
        kind = "no_block" if last is None else "free_last" if free(last) else "used_last"
        return {"enlarge_" + (kind if k else "none")}
    strips = min(k // 4 * 4, zone.bays[-1].sum)
    if strips == 0:
        return {"shrink_none"}
    return {"shrink_" + ("free_last" if free(last) and last.size >= strips else "compacted")}


def _roster(zone: Zone, made: Sequence[int]) -> Set[str]:
    """Whether by place, by age and by handle are three different orders."""
    standing = tuple(block.handle for block in zone.blocks if block.handle is not None)
    apart = len({standing, tuple(made), zone.handles}) == 3
    return {"roster_order"} if apart and sorted(made) == list(zone.handles) else set()


def ways(before: bytes, call: Sequence[str], made: Sequence[int]) -> Set[str]:
    """The ways of an accepted call that may change the zone, or of a roster.

    `made` has the live handles, oldest first, which the zone does not tell.
    """
    name = call[0]
    if name == "initialize":
        length, m = map(int, call[1:])
        kind = "no_master" if m == 0 else "free" if length > 16 + 4 * m else "no_free"
        return {"initialize_" + kind}
    if name == "roster":
        return _roster(Zone(before), made)
    if name not in CHANGING:
        return set()
    zone, numbers = Zone(before), [int(word) for word in call[1:]]
    if name == "allocate_relocatable":
        found = _relocatable(zone, *numbers)
    elif name == "allocate_fixed":
        found = _fixed(zone, *numbers)
    elif name == "free_handle":
        found = {"free_handle_" + merges(zone, zone.by_handle(*numbers))}
    elif name == "free_pointer":
        found = _free_pointer(zone, *numbers)
    elif name == "resize":
        found = _resize(zone, *numbers)
    elif name.endswith("_page"):
        found = _page(zone, name, *(numbers + [0])[:2])
    else:
        found = _whole_zone(zone, name, *(numbers or [0]))
    if any(bay.capacity == 0 for bay in zone.bays) and len(zone.bays) > 1:
        found.add("empty_bay")
    return found


def refusal_names(list_name: str) -> List[str]:
    """The calls that a list of refusals.calls must show refused."""
    number = int(list_name.split("_")[1])
    return REFUSALS[number] + (["view"] if number in VIEW_TOO else [])
