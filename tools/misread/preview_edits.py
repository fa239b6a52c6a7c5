"""Misreadings of a preview (request #109), written into its definition under the entries' names. `edits.py` says what an entry is and tries
them. The texts are those of run/specs/Preview.antt; the crates below keep theirs."""
PREVIEW = 'run/specs/Preview.antt'
AT_OPENING = 'BadExtent when (bad_at_opening candidates lent || bad_replacement style) else'
AT_REPLY = 'BadExtent when (bad_at_reply s.opened.extents (lent_by reply surfaced) lent || bad_replacement style) else'
NODE = 'BadCandidate when bad_node lent.styles node else'
LAST = f'{NODE}\n    accepted'
COPY = 'with_style lent.styles node style'
OPENED = 'preview_opened_by (Ok tt) o candidates node style lent = opened o candidates (over_copy node style lent)'
REPLIED = 'preview_replied_by (Ok tt) s reply surfaced node style lent = replied s reply surfaced (over_copy node style lent)'


def brought_in(module, *names):
    """what a misreading needs besides, behind the last import"""
    after = 'use Rattle.run.specs.Run.{opened, replied, refusing_opening, refusing}'
    return PREVIEW, after, f'{after}\nuse Rattle.{module}.{{{", ".join(names)}}}'


def lines(*tests): return '\n    '.join(tests)


EDITS = [
    # ---- the node
    ('node: before the extents', [
        (PREVIEW, lines(AT_OPENING, NODE), lines(NODE, AT_OPENING)),
        (PREVIEW, lines(AT_REPLY, NODE), lines(NODE, AT_REPLY))]),
    ('node: n is one', [
        brought_in('std.specs.Prelude', 'ltb'),
        (PREVIEW, 'bad_node styles node = leb (items styles) node', 'bad_node styles node = ltb (items styles) node')]),
    ('node: not tested', [(PREVIEW, lines('', NODE), '', 2)]),
    ('node: not tested in a reply', [(PREVIEW, lines(AT_REPLY, NODE), AT_REPLY)]),
    ('node: its low 16 bits', [
        brought_in('std.specs.Prelude', '◌%◌'),
        (PREVIEW, 'bad_node styles node = leb (items styles) node', 'bad_node styles node = leb (items styles) (node % 65536)')]),
    # as the nodes of candidates are, with the copy's test 4
    ('node: after the styles', [
        brought_in('run.specs.Refusals', 'bad_style'),
        brought_in('refusal.specs.declared.Refusal.TheVariants', 'BadStyle'),
        (PREVIEW, NODE, lines('BadStyle when bad_style (with_style lent.styles node style) else', NODE), 2)]),
    ('node: in a reply after the counts', [
        brought_in('run.specs.Refusals', 'wrong_counts'),
        brought_in('refusal.specs.declared.Refusal.TheVariants', 'WrongReply'),
        (PREVIEW, lines(AT_REPLY, NODE), lines(AT_REPLY, 'WrongReply when wrong_counts lent s.counts else', NODE))]),
    ('node: in a reply after its kind', [
        brought_in('run.specs.Run', 'taken_by'),
        brought_in('std.specs.Prelude', 'is_none'),
        brought_in('refusal.specs.declared.Refusal.TheVariants', 'WrongReply'),
        (PREVIEW, lines(AT_REPLY, NODE), lines(AT_REPLY, 'WrongReply when is_none (taken_by s reply) else', NODE))]),
    ('node: a bad extent', [
        (PREVIEW, NODE, 'BadExtent when bad_node lent.styles node else', 2)]),
    # ---- the replacement
    ('replacement: longer ones too', [
        brought_in('std.specs.Prelude', 'ltb'),
        (PREVIEW, 'bad_replacement style = not (eqb (length style) style_words)', 'bad_replacement style = ltb (length style) style_words')]),
    ('replacement: whole records', [
        brought_in('std.specs.Prelude', '◌%◌'),
        (PREVIEW, 'not (eqb (length style) style_words)', 'not (eqb (length style % style_words) 0)')]),
    ('replacement: its length a bad style', [
        brought_in('refusal.specs.declared.Refusal.TheVariants', 'BadStyle'),
        (PREVIEW, ' || bad_replacement style', '', 2),
        (PREVIEW, LAST, lines(NODE, 'BadStyle when bad_replacement style else', 'accepted'), 2)]),
    ('replacement: before the area', [
        (PREVIEW, 'BadArea when bad_area o else\n', 'BadExtent when bad_replacement style else\n    BadArea when bad_area o else\n')]),
    ('replacement: in a reply not tested', [
        (PREVIEW, AT_REPLY, AT_REPLY.replace(' || bad_replacement style', ''))]),
    # ---- the copy
    ('copy: at the word of the node\'s number', [
        brought_in('records.specs.Records', 'written'),
        (PREVIEW, COPY, 'written lent.styles node style')]),
    ('copy: of its first record too', [(PREVIEW, COPY, 'with_style (with_style lent.styles 0 style) node style')]),
    ('copy: of the next record', [
        brought_in('std.specs.Prelude', '◌+◌'),
        (PREVIEW, COPY, 'with_style lent.styles (node + 1) style')]),
    ('copy: without the last word', [
        brought_in('std.specs.Prelude', 'take'),
        (PREVIEW, COPY, 'with_style lent.styles node (take 78 style)')]),
    ('copy: the table\'s own styles are tested too', [
        brought_in('run.specs.Refusals', 'bad_style'),
        brought_in('refusal.specs.declared.Refusal.TheVariants', 'BadStyle'),
        (PREVIEW, LAST, lines(NODE, 'BadStyle when bad_style lent.styles else', 'accepted'), 2)]),
    ('copy: the table\'s own styles are tested too, in a reply', [
        brought_in('run.specs.Refusals', 'bad_style'),
        brought_in('refusal.specs.declared.Refusal.TheVariants', 'BadStyle'),
        (PREVIEW, lines(AT_REPLY, LAST), lines(AT_REPLY, NODE, 'BadStyle when bad_style lent.styles else', 'accepted'))]),
    ('copy: an opening goes by the table', [(PREVIEW, OPENED, OPENED.replace('(over_copy node style lent)', 'lent'))]),
    ('copy: a reply goes by the table', [(PREVIEW, REPLIED, REPLIED.replace('(over_copy node style lent)', 'lent'))]),
    # ---- what a refused call leaves
    ('refused: a reply ends the run', [
        brought_in('run.specs.Run', 'closed'),
        brought_in('run.specs.Call', 'unwritten'),
        (PREVIEW, 'node style lent = refusing s lent r', 'node style lent = unwritten lent (record { state = closed lent; answer = Err r })')]),
    ('refused: an opening keeps no lengths', [
        brought_in('std.specs.Prelude', '[]'),
        brought_in('run.specs.Run', 'closed'),
        brought_in('run.specs.Call', 'unwritten, lent as slices_lent'),
        (PREVIEW, 'node style lent = refusing_opening lent r', 'node style lent = unwritten lent (record { state = closed (slices_lent [] [] [] [] []); answer = Err r })')]),
]
