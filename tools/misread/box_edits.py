"""Misreadings of a box and of its contribution, written into definition and code alike edits.py. A name is box.py's own
of the misreading; then the crates whose code is proved anew, and (file, old, new). A comment says where an edit isn't quite the model's misreading."""
RESOLVED, RESOLVE = 'oof_resolve/specs/Resolved.antt', 'oof_resolve/src/lib.rt'
PLACING, PLACE = 'oof_place/specs/Placing.antt', 'oof_place/src/lib.rt'
OVERFLOW, OVERFLOWS = 'oof_common/specs/ScrollableOverflow.antt', 'oof_common/src/scrollable_overflow.rt'
KEYWORD, KEYWORDS = 'oof_common/specs/SizingKeyword.antt', 'oof_common/src/sizing_keyword.rt'
BOX, CUT, SIZING, DIALOGUE = 'oof_box/specs/Box.antt', 'oof_box/specs/Cut.antt', 'oof_box/src/sizing.rt', 'oof_box/src/dialogue.rt'
# what the margins leave of the block, at least 0
LEFT, LEAVES = 'larger (blockSize ⊖ or_zero margin.start ⊖ or_zero margin.end) 0f', """    let free = size - margin.start.unwrap_or(0.0) - margin.end.unwrap_or(0.0);
    sys::f32_max(free, 0.0)
"""
R, P, C, B = ['oof_resolve'], ['oof_place'], ['oof_common'], ['oof_box']

EDITS = [
    # ---- step 1: percentages, axes, alignment
    # of bottom margin, padding and border too
    ('top margin: percentages of the height', R, [
        (RESOLVED, 'of_width f sides areaSize = resolved_rect f sides areaSize.width areaSize.width', 'of_width f sides areaSize = resolved_rect f sides areaSize.width areaSize.height'),
        (RESOLVE, 'sides.map(|length| resolve::maybe_resolve(field, length, area.width))', 'resolve::maybe_resolve_rect(field, sides, area)')]),
    ('top and bottom insets: percentages of the width', R, [
        (RESOLVED, 'resolved_rect field.InsetOrMargin sides areaSize.width areaSize.height', 'resolved_rect field.InsetOrMargin sides areaSize.width areaSize.width'),
        (RESOLVE, 'resolve::maybe_resolve_rect(Field::InsetOrMargin, sides, area)', 'sides.map(|length| resolve::maybe_resolve(Field::InsetOrMargin, length, area.width))')]),
    ('offset: not taken off the static area', R, [
        (RESOLVED, 'record { area = counted_from place.area offset; align = place.align }', 'record { area = place.area; align = place.align }'),
        (RESOLVE, 'area: place.area.relative_to(offset),', 'area: place.area,')]),
    ('vertical axis: of the width', R, [
        (RESOLVED, 'size = container.area.size.height;', 'size = container.area.size.width;'),
        (RESOLVE, 'size: area.size.height,', 'size: area.size.width,')]),
    ('vertical axis: as the inline axis', R, [
        (RESOLVED, 'inline = false;', 'inline = true;'),
        (RESOLVE, 'inline: false,', 'inline: true,')]),
    ('start and end: by the item\'s direction', R, [
        (RESOLVED, 'reversed = is_rtl container.direction;', 'reversed = is_rtl style.direction;'),
        (RESOLVE, 'reversed: container.direction.is_rtl(),', 'reversed: style.direction.is_rtl(),')]),
    ('an axis scrolls by the other\'s overflow', R, [
        (RESOLVED, 'scrolls = is_scroll_container container.overflow.x;', 'scrolls = is_scroll_container container.overflow.Y;'),
        (RESOLVED, 'scrolls = is_scroll_container container.overflow.y;', 'scrolls = is_scroll_container container.overflow.x;'),
        (RESOLVED, 'scrolls = is_scroll_container container.overflow.Y;', 'scrolls = is_scroll_container container.overflow.y;'),
        (RESOLVE, 'scrolls: container.overflow.x.', 'scrolls: container.overflow.Y.'),
        (RESOLVE, 'scrolls: container.overflow.y.', 'scrolls: container.overflow.x.'),
        (RESOLVE, 'scrolls: container.overflow.Y.', 'scrolls: container.overflow.y.')]),
    ('justify-self and align-self exchanged', R, [
        (RESOLVED, 'self_relative style.justify', 'self_relative style.ALIGN'),
        (RESOLVED, 'self_relative style.align', 'self_relative style.justify'),
        (RESOLVED, 'self_relative style.ALIGN', 'self_relative style.align'),
        (RESOLVE, 'style\n        .justify\n', 'style\n        .ALIGN\n'),
        (RESOLVE, 'style\n        .align\n', 'style\n        .justify\n'),
        (RESOLVE, 'style\n        .ALIGN\n', 'style\n        .align\n')]),
    ('self-start as start', R, [
        (RESOLVED, 'self_relative style.justify style.direction container.direction true', 'self_relative style.justify style.direction container.direction false'),
        (RESOLVE, '.resolve_self_relative(style.direction, container.direction, true)', '.resolve_self_relative(style.direction, container.direction, false)')]),
    ('self-start: in the block axis too', R, [
        (RESOLVED, 'self_relative style.align style.direction container.direction false', 'self_relative style.align style.direction container.direction true'),
        (RESOLVE, '.resolve_self_relative(style.direction, container.direction, false)', '.resolve_self_relative(style.direction, container.direction, true)')]),
    # ---- step 2: size, min, max, ratio
    ('content-box as border-box', R, [
        (RESOLVED, '(cond (is_content_box style.sizing) paddingBorder zero_size)', '(cond (is_content_box style.sizing) zero_size zero_size)'),
        (RESOLVE, 'size.maybe_add(edges)', 'size.maybe_add(Size::ZERO)')]),
    ('border-box as content-box', R, [
        (RESOLVED, '(cond (is_content_box style.sizing) paddingBorder zero_size)', '(cond (is_content_box style.sizing) paddingBorder paddingBorder)'),
        (RESOLVE, 'size.maybe_add(Size::ZERO)', 'size.maybe_add(edges)')]),
    ('size, min, max: percentages of the width', R, [
        (RESOLVED, 'resolved_size f lengths areaSize', 'resolved_size f lengths (record { width = areaSize.width; height = areaSize.width })'),
        (RESOLVE, 'resolve::maybe_resolve_size(field, lengths, area)',
            'resolve::maybe_resolve_size(\n        field,\n        lengths,\n        Size {\n            width: area.width,\n            height: area.width,\n        },\n    )')]),
    ('ratio: ignored', R + B, [
        (RESOLVED, 'Prelude.{true, false, cond, Float, Option}', 'Prelude.{true, false, cond, Float, None, Option}'),
        (RESOLVED, 'with_ratio style.ratio', 'with_ratio None'),
        (RESOLVE, 'maybe_apply_aspect_ratio(\n        style.ratio,\n    )', 'maybe_apply_aspect_ratio(None)'),
        (BOX, 'clamped_size (with_ratio ratio size) box.min box.max', 'clamped_size (with_ratio None size) box.min box.max'),
        (SIZING, 'size.maybe_apply_aspect_ratio(ratio)', 'size.maybe_apply_aspect_ratio(None)')]),
    ('min: not raised to padding plus border', R, [
        (RESOLVED, 'raised_size (first_size (style_size field.MinOrMax style.min style areaSize paddingBorder) (definite paddingBorder)) paddingBorder',
            'first_size (style_size field.MinOrMax style.min style areaSize paddingBorder) (definite paddingBorder)'),
        (RESOLVE, '.or(edges.some())\n        .maybe_max(edges)', '.or(edges.some())')]),
    # of the size of step 2 and of the final size; not of the space, nor where step 5 stretches
    ('min before max', R + B, [
        (RESOLVED, 'zero_size, smaller_size,', 'zero_size, absent_size, smaller_size,'),
        (RESOLVED, 'size = clamped_size size min max;', 'size = clamped_size (clamped_size size min absent_size) absent_size max;'),
        (RESOLVE, 'size: size.maybe_clamp(min, max)', 'size: size.maybe_clamp(min, Size::NONE).maybe_clamp(Size::NONE, max)'),
        (BOX, 'clamped_floats (filled_size at.known reply) at.min box.max', 'clamped_floats (clamped_floats (filled_size at.known reply) at.min absent_size) absent_size box.max'),
        (SIZING, '.maybe_clamp(at.min, self.resolved.max)', '.maybe_clamp(at.min, Size::NONE)\n            .maybe_clamp(Size::NONE, self.resolved.max)')]),
    # ---- step 3: available space
    # a table's is still less its margins
    ('space: the containing block', R, [
        (RESOLVED, 'definite_spaces (space_for style areaSize fit)', 'definite_spaces (space_for style areaSize areaSize)'),
        (RESOLVE, 'space_for(style, area, fit)', 'space_for(style, area, area)')]),
    ('stretched: the other axis\' stretch-fit size', R, [
        (RESOLVED, 'record { width = stretch_fit x; height = stretch_fit y }', 'record { width = stretch_fit y; height = stretch_fit x }'),
        (RESOLVE, 'width: horizontal.stretch_fit_size(),\n        height: vertical.stretch_fit_size(),', 'width: vertical.stretch_fit_size(),\n        height: horizontal.stretch_fit_size(),')]),
    # ---- step 4: size keywords, as of request #106
    ('stretch keyword: the area less its insets', B, [
        (BOX, 'use Rattle.util.specs.Order.{larger}', 'use Rattle.util.specs.Number.{◌⊖◌}\nuse Rattle.util.specs.Order.{larger}'),
        (BOX, 'absolute_stretch (span (block a)) a.margin', 'absolute_stretch (a.size ⊖ or_zero a.inset.start ⊖ or_zero a.inset.end) a.margin'),
        (SIZING, '    sizing_keyword::absolute_stretch_size(axis.inset_modified_containing_block_size(), axis.margin)\n', """    let left = axis.size - axis.inset.start.unwrap_or(0.0) - axis.inset.end.unwrap_or(0.0);
    sizing_keyword::absolute_stretch_size(left, axis.margin)
""")]),
    ('stretch keyword: the block only where no inset is given', B, [
        (BOX, 'use Rattle.util.specs.Order.{larger}', 'use Rattle.util.specs.Number.{◌⊖◌}\nuse Rattle.util.specs.Order.{larger}'),
        (BOX, 'absolute_stretch (span (block a)) a.margin',
            'absolute_stretch (cond (is_some a.inset.start || is_some a.inset.end) (a.size ⊖ or_zero a.inset.start ⊖ or_zero a.inset.end) (span (block a))) a.margin'),
        (SIZING, '    sizing_keyword::absolute_stretch_size(axis.inset_modified_containing_block_size(), axis.margin)\n', """    if axis.inset.start.is_some() || axis.inset.end.is_some() {
        let left = axis.size - axis.inset.start.unwrap_or(0.0) - axis.inset.end.unwrap_or(0.0);
        return sizing_keyword::absolute_stretch_size(left, axis.margin);
    }
    sizing_keyword::absolute_stretch_size(axis.inset_modified_containing_block_size(), axis.margin)
""")]),
    ('stretch keyword: margins left out', C, [
        (KEYWORD, LEFT, 'larger blockSize 0f'),
        (KEYWORDS, LEAVES, '    sys::f32_max(size, 0.0)\n')]),
    ('stretch keyword: below 0', C, [
        (KEYWORD, LEFT, 'blockSize ⊖ or_zero margin.start ⊖ or_zero margin.end'),
        (KEYWORDS, LEAVES, '    size - margin.start.unwrap_or(0.0) - margin.end.unwrap_or(0.0)\n')]),
    ('the other side\'s space: the room of the side asked for', B, [
        (BOX, 'space = spaceX and Definite stretch.height', 'space = spaceX and Definite stretch.width'),
        (BOX, 'Definite (unwrap_or known.width stretch.width)', 'Definite (unwrap_or known.width stretch.height)'),
        (DIALOGUE, 'height: AvailableSpace::Definite(stretch.height),', 'height: AvailableSpace::Definite(stretch.width),'),
        (DIALOGUE, 'AvailableSpace::Definite(width.unwrap_or(stretch.width))', 'AvailableSpace::Definite(width.unwrap_or(stretch.height))')]),
    ('size keyword: though a given side gives it by the ratio', R, [
        (RESOLVED, 'Prelude.{true, false, cond, Float, Option}', 'Prelude.{true, false, cond, Float, None, Option}'),
        (RESOLVED, 'use Rattle.style.specs.Resolve.{resolved_rect, resolved_size}', """use Rattle.style.specs.Resolve.{resolved, resolved_rect, resolved_size}
use Rattle.style.specs.declared.resolve.Resolved.{Resolved}
use Rattle.style.specs.declared.resolve.Resolved.TheVariants.{NotAllowed, Absent, Length, Keyword}"""),
        (RESOLVED, '-- ---- step 3: available space\n', """-- none for a side with a keyword
abbrev pub unless_keyword : Resolved → Option Float → Option Float
unless_keyword NotAllowed side = side
unless_keyword Absent side = side
unless_keyword (Length x) side = side
unless_keyword (Keyword k) side = None

abbrev pub own_side : CompactLength → Float → Option Float → Option Float
own_side length basis side = unless_keyword (resolved field.Size length basis) side

-- ---- step 3: available space
"""),
        (RESOLVED, 'let size = style_size field.Size style.size style areaSize paddingBorder in', """let found = style_size field.Size style.size style areaSize paddingBorder in
    let size : Size (Option Float) = record { width = own_side style.size.width areaSize.width found.width; height = own_side style.size.height areaSize.height found.height } in"""),
        (RESOLVE, 'style_size, min_size, less_margins', 'style_size, min_size, own_side, less_margins'),
        (RESOLVE, 'use style::resolve::Field;', 'use style::resolve::{Field, Resolved};'),
        (RESOLVE, '// ---- step 3\n', """fn own_side(length: CompactLength, basis: f32, side: Option<f32>) -> Option<f32>
    ensures { result ≡ own_side length basis side }
{
    match resolve::resolve(Field::Size, length, basis) {
        Resolved::Keyword(_) => None,
        Resolved::NotAllowed | Resolved::Absent | Resolved::Length(_) => side,
    }
}

// ---- step 3
"""),
        (RESOLVE, 'let size = style_size(Field::Size, style.size, style, area, edges);', """let found = style_size(Field::Size, style.size, style, area, edges);
    let size = Size {
        width: own_side(style.size.width, area.width, found.width),
        height: own_side(style.size.height, area.height, found.height),
    };""")]),
    # the stretch-fit size, as step 5 has it; of a table the min is raised to it
    ('auto height beside width stretch: its stretch size', B, [
        (BOX, 'Prelude.{ℕ, Bool, cond,', 'Prelude.{ℕ, Bool, cond, eqb,'),
        (BOX, 'let stretchesY = not (is_some known.height) && stretches box.vertical plain in',
            'let stretchesY = (not (is_some known.height) && stretches box.vertical plain) || (not (is_some known.height) && eqb style.size.width.tag 75) in'),
        (SIZING, 'let stretchy = self.is_stretched(known.height, &self.resolved.vertical);', """let stretchy = self.is_stretched(known.height, &self.resolved.vertical)
            || (known.height.is_none() && self.style.size.width.tag == 75);""")]),
    ('table with width stretch: min height not raised', B, [
        (BOX, 'Prelude.{ℕ, Bool, cond,', 'Prelude.{ℕ, Bool, cond, eqb,'),
        (BOX, 'by raised_min stretchesY box.min.height', 'by raised_min (stretchesY && not (eqb style.size.width.tag 75)) box.min.height'),
        (SIZING, 'height: raised_min(stretchy, min.height, fit.height)', 'height: raised_min(stretchy && self.style.size.width.tag != 75, min.height, fit.height)')]),
    # ---- step 5: stretch
    ('table: normal stretches', B, [
        (BOX, 'let plain = not style.replaced && not style.table in', 'let plain = not style.replaced && not style.replaced in'),
        (SIZING, 'not self.now.style.now.replaced && not self.now.style.now.table', 'not self.now.style.now.replaced && not self.now.style.now.replaced'),
        (SIZING, 'is_stretch_sized(self.style.replaced, self.style.table)', 'is_stretch_sized(self.style.replaced, self.style.replaced)')]),
    ('replaced: normal stretches', B, [
        (BOX, 'let plain = not style.replaced && not style.table in', 'let plain = not style.table && not style.table in'),
        (SIZING, 'not self.now.style.now.replaced && not self.now.style.now.table', 'not self.now.style.now.table && not self.now.style.now.table'),
        (SIZING, 'is_stretch_sized(self.style.replaced, self.style.table)', 'is_stretch_sized(self.style.table, self.style.table)')]),
    ('table: stretched directly', B, [
        (BOX, 'known = known;\n      min = raised_min stretchesX box.min.width box.fit.width by raised_min stretchesY box.min.height box.fit.height;',
            'known = heightened ratio box stretchesY (widened ratio box stretchesX known);\n      min = box.min;'),
        (SIZING, """            let raised = Size {
                width: raised_min(stretchx, min.width, fit.width),
                height: raised_min(stretchy, min.height, fit.height),
            };
            return Stretched { known, min: raised };
""", """            let own = self.stretch_ratio(stretchx, stretchy);
            let wide = self.widen(known, own, stretchx);
            return Stretched {
                known: self.heighten(wide, own, stretchy),
                min,
            };
"""),
        (SIZING, '        let fit = self.resolved.fit;\n', '')]),
    ('table: min not raised', B, [
        (BOX, 'cond stretchesSide (Some (larger (or_zero min) fit)) min', 'cond stretchesSide min min'),
        (SIZING, 'Some(sys::f32_max(min.unwrap_or(0.0), fit))', 'min')]),
    ('table: min is the stretch-fit size', B, [
        (BOX, 'cond stretchesSide (Some (larger (or_zero min) fit)) min', 'cond stretchesSide (Some fit) min'),
        (SIZING, 'Some(sys::f32_max(min.unwrap_or(0.0), fit))', 'Some(fit)')]),
    # a width; a height only where it is absent
    ('stretched: a given size too', B, [
        (BOX, 'let stretchesX = not (is_some known.width) && stretches box.horizontal plain in', 'let stretchesX = stretches box.horizontal plain in'),
        (BOX, 'let stretchesY = not (is_some known.height) && stretches box.vertical plain in', 'let stretchesY = stretches box.vertical plain in'),
        (SIZING, 'result ≡ (not (is_some known) && stretches axis.now (not self.now.style.now.replaced && not self.now.style.now.table))', 'result ≡ stretches axis.now (not self.now.style.now.replaced && not self.now.style.now.table)'),
        (SIZING, 'known.is_none() && axis.is_stretch_sized', 'axis.is_stretch_sized')]),
    # ---- step 6: measured
    ('never measured: padding plus border', B, [
        (BOX, 'cond (both_present at.known) (done zero_size) (measure_both (fill_input node at.known box.space))', 'done zero_size'),
        (CUT, """    cond (is_some s.replies.fill || both_present known) (lay_out_asked node (size_by s) s.resolved.space)
    (fill_asked node known s.resolved.space)""", '    lay_out_asked node (size_by s) s.resolved.space'),
        (DIALOGUE, """    if sizing.replies.fill.is_some() || at.known.both_axis_defined() {
        return lay_out_asked(node, sizing.fill(at), space);
    }
    fill_asked(node, at.known, space)""", '    lay_out_asked(node, sizing.fill(at), space)')]),
    ('measured: not clamped', B, [
        (BOX, 'clamped_floats (filled_size at.known reply) at.min box.max', 'filled_size at.known reply'),
        (SIZING, '\n            .maybe_clamp(at.min, self.resolved.max)', '')]),
    ('measured: sides exchanged', B, [
        (BOX, 'filled_size at.known reply)', 'filled_size at.known (record { width = reply.height; height = reply.width }))'),
        (SIZING, '.unwrap_or(measured)', '.unwrap_or(Size {\n                width: measured.height,\n                height: measured.width,\n            })')]),
    ('measured: the other side not told', B, [
        (BOX, 'fill_input node at.known box.space', 'fill_input node absent_size box.space'),
        (CUT, '(fill_asked node known s.resolved.space)', '(fill_asked node absent_size s.resolved.space)'),
        (DIALOGUE, 'fill_asked(node, at.known, space)\n', 'fill_asked(node, Size::NONE, space)\n')]),
    # ---- step 7: location, margins, gutters
    ('offset: not added to the location', P, [
        (PLACING, 'x = placedX.position ⊕ container.area.offset.x; y = placedY.position ⊕ container.area.offset.y', 'x = placedX.position; y = placedY.position'),
        (PLACE, 'x: x.position + offset.x,\n            y: y.position + offset.y,', 'x: x.position,\n            y: y.position,'),
        (PLACE, '    let offset = container.area.offset;\n    let x = resolved', '    let x = resolved')]),
    ('offset: of the other axis', P, [
        (PLACING, 'x = placedX.position ⊕ container.area.offset.x; y = placedY.position ⊕ container.area.offset.y', 'x = placedX.position ⊕ container.area.offset.y; y = placedY.position ⊕ container.area.offset.x'),
        (PLACE, 'x: x.position + offset.x,\n            y: y.position + offset.y,', 'x: x.position + offset.y,\n            y: y.position + offset.x,')]),
    ('placed by the size of the other axis', P, [
        (PLACING, 'placement box.horizontal size.width', 'placement box.horizontal size.HEIGHT'),
        (PLACING, 'placement box.vertical size.height', 'placement box.vertical size.width'),
        (PLACING, 'placement box.horizontal size.HEIGHT', 'placement box.horizontal size.height'),
        (PLACE, 'horizontal.placement(size.width)', 'horizontal.placement(size.HEIGHT)'),
        (PLACE, 'vertical.placement(size.height)', 'vertical.placement(size.width)'),
        (PLACE, 'horizontal.placement(size.HEIGHT)', 'horizontal.placement(size.height)')]),
    ('scrollbar: vertical bar from overflow x', P, [
        (PLACING, 'width = scrollbar_of style.overflow.y style.scrollbar; height = scrollbar_of style.overflow.x style.scrollbar', 'width = scrollbar_of style.overflow.x style.scrollbar; height = scrollbar_of style.overflow.y style.scrollbar'),
        (PLACE, 'width: scrollbar_of(style.overflow.y, style.scrollbar),\n            height: scrollbar_of(style.overflow.x, style.scrollbar),', 'width: scrollbar_of(style.overflow.x, style.scrollbar),\n            height: scrollbar_of(style.overflow.y, style.scrollbar),')]),
    ('layout: padding and border exchanged', P, [
        (PLACING, 'padding = box.padding;\n      border = box.border;', 'padding = box.border;\n      border = box.padding;'),
        (PLACE, 'padding: resolved.padding,\n        border: resolved.border,', 'padding: resolved.border,\n        border: resolved.padding,')]),
    # ---- the contribution
    ('contribution: from the left always', P, [
        (PLACING, 'cond (is_rtl container.direction) (container.area.size.width ⊖ x ⊖ size.width) x', 'cond (is_rtl container.direction) x x'),
        (PLACE, 'x: container.area.size.width - x - size.width,', 'x: x,')]),
    ('contribution: from the right without the width', P, [
        (PLACING, 'container.area.size.width ⊖ x ⊖ size.width', 'container.area.size.width ⊖ x'),
        (PLACE, 'x: container.area.size.width - x - size.width,', 'x: container.area.size.width - x,')]),
    ('contribution: the offset counted', P, [
        (PLACING, 'let x = location.x ⊖ container.area.offset.x in', 'let x = location.x in'),
        (PLACING, 'y = location.y ⊖ container.area.offset.y }', 'y = location.y }'),
        (PLACE, 'let x = location.x - offset.x;\n    let y = location.y - offset.y;', 'let x = location.x;\n    let y = location.y;')]),
    # a margin below 0 counts too, and the own overflow from the margin edge
    ('contribution: the margin box', P, [
        (PLACING, 'let layout = layout_of container style candidate box size overflow in\n    record {', """let layout = layout_of container style candidate box size overflow in
    let corner : Point Float = record { x = layout.location.x ⊖ layout.margin.left; y = layout.location.y ⊖ layout.margin.top } in
    let outer : Size Float = record { width = layout.margin.left ⊕ size.width ⊕ layout.margin.right; height = layout.margin.top ⊕ size.height ⊕ layout.margin.bottom } in
    record {"""),
        (PLACING, 'contribution (from_origin container layout.location size) size overflow', 'contribution (from_origin container corner outer) outer overflow'),
        (PLACE, """    let contribution = scrollable_overflow::compute_scrollable_overflow_contribution(
        from_origin(container, layout.location, size),
        size,
""", """    let margin = layout.margin;
    let corner = Point {
        x: layout.location.x - margin.left,
        y: layout.location.y - margin.top,
    };
    let outer = Size {
        width: margin.left + size.width + margin.right,
        height: margin.top + size.height + margin.bottom,
    };
    let contribution = scrollable_overflow::compute_scrollable_overflow_contribution(
        from_origin(container, corner, outer),
        outer,
""")]),
    ('contribution: a box that can\'t be scrolled to counts', P, [
        (PLACING, 'Prelude.{cond, Float}', 'Prelude.{false, cond, Float}'),
        (PLACING, '(any_scroll_container container.overflow)', 'false'),
        (PLACE, 'style::any_scroll_container(container.overflow),', 'false,')]),
    ('contribution: zeros before the start in any parent', P, [
        (PLACING, 'Prelude.{cond, Float}', 'Prelude.{true, cond, Float}'),
        (PLACING, '(any_scroll_container container.overflow)', 'true'),
        (PLACE, 'style::any_scroll_container(container.overflow),', 'true,')]),
    ('contribution: own overflow never counted', C, [
        (OVERFLOW, 'cond shows (smaller 0f own.start to larger size own.end) (0f to size)', 'cond shows (0f to size) (0f to size)'),
        (OVERFLOWS, 'start: sys::f32_min(0.0, own.start),\n            end: sys::f32_max(size, own.end),', 'start: 0.0,\n            end: size,')]),
    ('contribution: own overflow always counted', C, [
        (OVERFLOW, 'cond shows (smaller 0f own.start to larger size own.end) (0f to size)', 'smaller 0f own.start to larger size own.end'),
        (OVERFLOWS, """    if shows {
        Line {
            start: sys::f32_min(0.0, own.start),
            end: sys::f32_max(size, own.end),
        }
    } else {
        Line {
            start: 0.0,
            end: size,
        }
    }
""", """    Line {
        start: sys::f32_min(0.0, own.start),
        end: sys::f32_max(size, own.end),
    }
""")]),
    ('contribution: containment ignored', C, [
        (OVERFLOW, 'not (any_scroll_container overflow) && not (contains_overflow contain) && is_visible axis', 'not (any_scroll_container overflow) && is_visible axis'),
        (OVERFLOWS, '        && !contain.contains_scrollable_overflow()\n', '')]),
    ('contribution: a scroll container\'s overflow counted', C, [
        (OVERFLOW, 'not (any_scroll_container overflow) && not (contains_overflow contain) && is_visible axis', 'not (contains_overflow contain) && is_visible axis'),
        (OVERFLOWS, '!style::any_scroll_container(overflow)\n        && !contain', '!contain')]),
    ('contribution: own overflow in place of the box', C, [
        (OVERFLOW, 'cond shows (smaller 0f own.start to larger size own.end) (0f to size)', 'cond shows own (0f to size)'),
        (OVERFLOWS, 'Line {\n            start: sys::f32_min(0.0, own.start),\n            end: sys::f32_max(size, own.end),\n        }', 'own')]),
    ('contribution: a height of 0 counts', C, [
        (OVERFLOW, 'cond (le reach_x.end 0f || le reach_y.end 0f) zero_rect', 'cond (le reach_x.end 0f || le reach_x.end 0f) zero_rect'),
        (OVERFLOWS, 'if either_at_most_zero(reach_x.end, reach_y.end) {', 'if either_at_most_zero(reach_x.end, reach_x.end) {')]),
]
