"""A zone, the part of one before a fault, and what differs between two, as
JSON for other programs."""

import json
from typing import Any, Dict, Optional, Sequence

from .check import Image
from .content import Content
from .diff import Change
from .format import Block, BlockType
from .rules import ZoneError
from .zone import Zone


def zone_text(zone: Zone, limits: Image = b"") -> str:
    """All that zone-print prints, and every byte of the blocks' data."""
    return _text({
        **_content(zone),
        "bays": [{**bay._asdict(), "capacity": bay.capacity,
                  "apart": bay.apart,
                  "blocks": [block.offset for block in bay.blocks]}
                 for bay in zone.bays],
        "sum": zone.sum()._asdict(),
        "scatter": zone.scatter()._asdict(),
        "strata": [stratum._asdict() for stratum in zone.strata(limits)],
        "fault": None,
    })


def part_text(part: Content, fault: ZoneError) -> str:
    """What was read before the fault, and the fault."""
    return _text({**_content(part), "fault": fault_value(fault)})


def block_text(content: Content, block: Block,
               fault: Optional[ZoneError] = None) -> str:
    """One block."""
    return _text({"block": block_value(content, block),
                  "fault": None if fault is None else fault_value(fault)})


def changes_text(a: Zone, b: Zone, changes: Sequence[Change]) -> str:
    """Every block of two zones, in each of them; None where it is not."""
    return _text({
        "alike": a.data == b.data,
        "a": _numbers(a),
        "b": _numbers(b),
        "blocks": [{"a": _there(a, change.before),
                    "b": _there(b, change.after), "slid": change.slid,
                    "grown": change.grown, "changed": change.changed,
                    "runs": change.runs, "what": change.words}
                   for change in changes],
    })


def block_value(content: Content, block: Block) -> Dict[str, Any]:
    """The block; what its type does not have is left out."""
    value: Dict[str, Any] = {"offset": block.offset,
                             "type": block.type.name.lower(),
                             "size": block.size}
    if block.handle is not None:
        value["handle"] = block.handle
    if block.pointer is not None:
        value["pointer"] = block.pointer
    if block.page is not None:
        value.update(block.page._asdict())
    if block.type is not BlockType.FREE:
        value.update(data_offset=block.data_offset, data_size=block.data_size,
                     data=content.read_block(block).hex())
    return value


def fault_value(fault: ZoneError) -> Dict[str, Any]:
    return {"rule": fault.rule, "offset": fault.offset, "detail": fault.detail}


def _content(content: Content) -> Dict[str, Any]:
    return {**_numbers(content),
            "blocks": [block_value(content, block)
                       for block in content.blocks]}


def _numbers(content: Content) -> Dict[str, Any]:
    return {"length": content.length, "bk_fst": content.bk_fst,
            "m": content.m, "h_fst_free": content.h_fst_free,
            "clock": content.clock, "chain": content.chain}


def _there(content: Content,
           block: Optional[Block]) -> Optional[Dict[str, Any]]:
    return None if block is None else block_value(content, block)


def _text(value: Dict[str, Any]) -> str:
    return json.dumps(value, indent=1) + "\n"
