"""The sources of tables: `vp9_tables`, from the plain tables, and the tails of tokens of `coef_tokens`."""
from vp9model.tables import coefficients, flows, table
from vp9model.tokens import tail_prob

from .items import BLOCK_SIZES, Item, item, listed, struct, tx_name

INTRA_MODES = "mode order DC, V, H, D45, D135, D117, D153, D207, D63, TM"
NODES = "nodes: DC or not, TM, V, the pair of groups, H, (D135, D117), D45, D63, (D153, D207)"
PARTITION = "[context: 4 * (0 for 8x8 .. 3 for 64x64) + 2 * left + above][node: whole, horizontal, vertical or split]"
COMPONENT = "[component: 0 row, 1 column]"
SCANS_OF = {"default": "DctDct and AdstAdst", "row": "AdstDct", "column": "DctAdst"}
SIZES = {"default": [4, 8, 16, 32], "row": [4, 8, 16], "column": [4, 8, 16]}
KINDS_OF_TRANSFORM = "DctDct AdstDct DctAdst AdstAdst".split()


def flat(name, kind, values, meaning):
    plain = item("pub static", name, kind, values)
    return Item(name, f"/// {meaning}\n{plain.text}")


def nested(name, kind, values, width, meaning):
    return flat(name, f"[{kind}; {width}]", [values[at:at + width] for at in range(0, len(values), width)], meaning)


def scan_module():
    out = []
    for kind, sizes in SIZES.items():
        for size in sizes:
            values = table(f"scan_{kind}_{size}")
            out.append(flat(f"SCAN_{kind.upper()}_{size}", "u16", values, f"{size}x{size}, {SCANS_OF[kind]}: [place in the scan], row * {size} + column of the coefficient."))
    return out


def neighbour_module():
    out = []
    for kind, sizes in SIZES.items():
        for size in sizes:
            pairs = table(f"scan_neighbours_{kind}_{size}")[:2 * size * size]
            out.append(flat(f"NEIGHBOURS_{kind.upper()}_{size}", "u16", pairs, f"{size}x{size}, {SCANS_OF[kind]}: [place in the scan][2], raster positions."))
    return out


def probability_module():
    tables = [
        ("tx8", "Transform size where 8x8 is the greatest: [context][node]."),
        ("tx16", "Transform size where 16x16 is the greatest: [context][node]."),
        ("tx32", "Transform size where 32x32 is the greatest: [context][node]."),
        ("skip", "[context]"),
        ("inter_mode", "[context][node: zero, nearest, near or new]"),
        ("filter", "[context][node: regular, smooth or sharp]"),
        ("is_inter", "[context]"),
        ("comp_flag", "[context]"),
        ("single_ref", "[context][first or second bool]"),
        ("comp_ref", "[context]"),
        ("y_mode", f"[size group][node], {NODES}."),
        ("uv_mode", f"[y mode][node], {INTRA_MODES}; {NODES}."),
        ("partition", PARTITION + "."),
        ("mv_joint", "[node]"),
        ("mv_sign", COMPONENT),
        ("mv_class", f"{COMPONENT}[node]"),
        ("mv_class0", COMPONENT),
        ("mv_bits", f"{COMPONENT}[bit, the lowest first]"),
        ("mv_class0_fr", f"{COMPONENT}[class 0 bit][node]"),
        ("mv_fr", f"{COMPONENT}[node]"),
        ("mv_class0_hp", COMPONENT),
        ("mv_hp", COMPONENT),
    ]
    out = [flat(f"PROB_{name.upper()}", "u8", table(f"prob_{name}"), meaning) for name, meaning in tables]
    out.append(flat("PROB_COEF", "u8", coefficients(), "[transform size][0 luma, 1 chroma][0 intra, 1 inter][33 contexts: 3 of band 0, then 6 of each band 1 to 5][node]"))
    return out


def intra_module():
    return [
        nested("KF_Y_MODE", "u8", table("kf_y_mode"), 9, f"[10 * above mode + left mode][node], {INTRA_MODES}; {NODES}."),
        nested("KF_UV_MODE", "u8", table("kf_uv_mode"), 9, f"[y mode][node], {INTRA_MODES}; {NODES}."),
        nested("KF_PARTITION", "u8", table("kf_partition"), 3, PARTITION + "."),
    ]


def motion_module():
    return [
        nested("MV_REF_OFFSETS", "i8", table("mv_ref_offsets"), 2, "[8 * block size + candidate][0 row, 1 column], in 8x8 blocks."),
        flat("REF_CONTEXTS", "u8", table("ref_contexts"), "[bool: compound or not, compound reference, single first, single second][fixed reference][above block][left block]"),
        flat("MODE_COUNTERS", "u8", table("mode_2_counter"), "[mode: 0 to 9 intra, then nearest, near, zero, new]"),
        flat("COUNTER_TO_CONTEXT", "u8", table("counter_to_context"), "[sum of two counters]; 9 stands at sums that can't arise."),
        flat("SUBBLOCK_OF_NEIGHBOUR", "u8", table("idx_n_column_to_subblock"), "[own sub-block][1 if the offset's column is 0]"),
    ]


def coefficient_module():
    out = [
        flat("COEF_BAND_4X4", "u8", table("coef_band_4x4"), "[place in the scan]"),
        flat("COEF_BAND_LARGE", "u8", table("coef_band_large"), "[place in the scan] of 8x8 (its first 64), 16x16 (256) and 32x32."),
        nested("PARETO", "u8", table("pareto"), 8, "[(q - 1) / 2 of an odd q][node of the tail of the token's tree]"),
        flat("ENERGY_CLASS", "u8", table("energy_class"), "[token: zero, one, two, three, four, categories 1 to 6, end]"),
        flat("INV_MAP", "u8", table("inv_map"), "[number that was decoded]"),
    ]
    for category in range(1, 6):
        out.append(flat(f"CAT{category}_PROB", "u8", table(f"cat{category}_prob"), "[bit, the highest first]"))
    out.append(flat("CAT6_PROB", "u8", table("cat6_prob_high12"), "[bit, the highest first] at depth 12; depth 10 has the last 16 of them, depth 8 the last 14."))
    return out


def tree_module():
    trees = [
        ("partition", "Leaves: whole, horizontal, vertical, split."),
        ("intra_mode", f"Leaves: {INTRA_MODES}."),
        ("inter_mode", "Leaves: 0 nearest, 1 near, 2 zero, 3 new."),
        ("filter", "Leaves: regular, smooth, sharp."),
        ("segment", "Leaves: segments."),
        ("mv_joint", "Leaves: 0 none, 1 column, 2 row, 3 both."),
        ("mv_class", "Leaves: classes."),
        ("mv_class0", "Leaves: the bit of class 0."),
        ("mv_fr", "Leaves: fractions."),
        ("coef", "Leaves: tokens 0 to 10 and 11, the end of the block."),
        ("coef_tail", "The token's tree behind its third node. Leaves: tokens 2 to 10."),
    ]
    out = [flat(f"TREE_{name.upper()}", "i8", table(f"tree_{name}"), meaning) for name, meaning in trees]
    for most, name in [(1, "TX8"), (2, "TX16"), (3, "TX32")]:
        unary = []
        for size in range(most):
            unary += [-size, 2 * size + 2 if size + 1 < most else -(size + 1)]
        out.append(flat(f"TREE_{name}", "i8", unary, "Leaves: transform sizes."))
    return out


def cosines():
    quarter = table("cos64")
    first = quarter + [-value for value in quarter[31::-1]]
    return first + first[63:0:-1]


def transform_module():
    return [
        flat("COS64", "i32", table("cos64"), "16384 cos(k pi / 64), rounded: [k]"),
        flat("COSINES", "i32", cosines(), "The same all around the circle: [k], k below 128."),
        flat("SINPI", "i32", table("sinpi"), "16384 * 2 sqrt(2) / 3 * sin(k pi / 9), rounded: [k - 1]"),
    ]


FIELDS = {"rot": ["a", "b", "angle"], "sum": ["a", "b"], "neg": ["a"], "wide": ["a", "b", "first_angle", "c", "d", "second_angle"]}


def flow_row(word, values):
    if word == "perm":
        return f"FlowRow::Perm({listed(values + [0] * (32 - len(values)))})"
    return struct(f"FlowRow::{word.capitalize()}", **dict(zip(FIELDS[word], values, strict=True)))


def flow_module():
    return [flat(f"FLOW_{kind}_{size}", "FlowRow", [flow_row(*row) for row in rows], f"The {kind} of {size}.")
            for (kind, size), rows in flows().items()]


def block_module():
    block = [f"BlockSize::{name}" for name in BLOCK_SIZES]
    transform = [f"TxSize::{tx_name(side)}" for side in (4, 8, 16, 32)]
    kind = [f"TxType::{name}" for name in KINDS_OF_TRANSFORM]
    maybe = [f"Some({name})" for name in block] + ["None"]
    return [
        nested("BLOCK_SIZES", "u8", table("block_sizes"), 2, "[block size][0 width, 1 height], in luma samples."),
        flat("SIZE_GROUP", "u8", table("size_group"), "[block size]"),
        flat("SUBSIZE", "Option<BlockSize>", [maybe[n] for n in table("subsize")], "[partition][block size]; blocks that aren't square have no parts."),
        flat("SS_SIZE", "Option<BlockSize>", [maybe[n] for n in table("ss_size")], "[block size][subsampled in x][subsampled in y]"),
        flat("UV_TX_SIZE", "TxSize", [transform[n] for n in table("uv_tx_size")], "[block size][luma transform size][subsampled in x][subsampled in y]"),
        flat("MAX_TX_SIZE", "TxSize", [transform[n] for n in table("max_tx_size")], "[block size]"),
        flat("TX_MODE_TO_BIGGEST", "TxSize", [transform[n] for n in table("tx_mode_to_biggest")], "[transform mode]"),
        flat("INTRA_MODE_TO_TX_TYPE", "TxType", [kind[n] for n in table("intra_mode_to_tx_type")], "[intra mode]"),
        flat("UPDATE_FACTOR", "u8", table("count_to_update_factor"), "[count, at most 20]"),
    ]




def quantisers():
    return [flat(name.upper(), "u16", table(name), "[depth: 8, 10, 12 bits][quantiser index]") for name in ("dc_q", "ac_q")]


def filters():
    return [nested("TAPS", "i16", table("taps"), 8, "[16 * kind + phase in sixteenths][tap]: the sample itself stands at tap 3.")]


MODULES = {
    "quantisers": quantisers,
    "scans": scan_module,
    "neighbours": neighbour_module,
    "filters": filters,
    "defaults": probability_module,
    "intra": intra_module,
    "motion": motion_module,
    "coefficients": coefficient_module,
    "trees": tree_module,
    "cosines": transform_module,
    "flows": flow_module,
    "blocks": block_module,
}


def tails():
    rows = [[tail_prob(q, node) for node in range(8)] for q in range(1, 256)]
    return [flat("TAILS", "[u8; 8]", rows,
                 "The probabilities of the eight nodes of a token's tail, by the probability q of its third node, from 1 on.")]
