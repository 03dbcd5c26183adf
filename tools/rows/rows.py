# Writes the rows of whole calls (crates/calls/specs) from the model: for each call its arguments, every value on the way, and the small equations
# that the check computes, joined by the steps of crates/calls/specs/Steps.antt.
# usage: python3 rows.py [--to FOLDER] [NAME..]      without names, every call; without a folder, into crates/calls/specs
import os, re, sys
from calls import *

PLACE = os.path.join(os.path.dirname(os.path.abspath(__file__)), '..', '..', 'crates', 'calls', 'specs')

# What a file of a call may cite, module by module; it imports of these what it does cite.
CITED = '''
Rattle.std.specs.Prelude ◌≡◌ refl true false Some None List [] ◌∷◌ replicate Float
Rattle.rounding.specs.Arith f64 zero64 one64
Rattle.project.specs.Camera boresight camera_rows
Rattle.panel.specs.Points points_of
Rattle.fit.specs.Rows Row row_of rows view_of
Rattle.fit.specs.Normal no_matches with_rows normal_matrix solved_sums
Rattle.residuals.specs.Residual residuals in_front mad_clip_matches
Rattle.solve.specs.Covariance covariance_from_normal
Rattle.project.specs.Project cd_from_theta
Rattle.fit.specs.declared.Pose Pose
Rattle.fit.specs.declared.View View
Rattle.fit.specs.declared.Counted Counted
Rattle.entry.specs.Arguments Call
Rattle.entry.specs.Fixed Fixed
Rattle.entry.specs.declared.Matcher.TheVariants Listing Scanning
Rattle.passes.specs.Fit fit_passes moved sound still
Rattle.wcs_refine.specs.Clip statistics clipped taken
Rattle.wcs_refine.specs.Associate adaptive_px
Rattle.query.specs.Query empty full axis32 least_cos scanned drifted Prediction predictions pruned
Rattle.wcs_refine.specs.Round State go done refuse associated compared refused ended loop round
Rattle.wcs_refine.specs.Closing sum_squares root_mean
Rattle.wcs_refine.specs.Call no ok left outcome queries
Rattle.rounding.specs.Computed arithmetic
Rattle.calls.specs.Computed checks
Rattle.calls.specs.Steps Pass last_pass unsound_pass next_pass no_pass passes_of Measured Queried first_search new_search
Rattle.calls.specs.Steps whole_round unsound_round round_of go_round done_round refused_round ran_of
Rattle.calls.specs.Steps Reused same_search no_round Clipping Refit last_clip next_clip
Rattle.calls.specs.Steps no_clip Reported report_of Begun queried_call refused_call accepted_call
'''
# what a computed equation opens beside the definitions that it is about
FLOATS = 'arithmetic'
CAME = '-- What it comes to.\npub '

def number(x):
    b = bits(x)
    return 'zero64' if b == 0 else 'one64' if b == 0x3FF0000000000000 else 'f64 0x%016X' % b
def argument(x):
    n = number(x)
    return '(' + n + ')' if ' ' in n else n
def several(xs): return ' ∷ '.join(list(xs) + ['[]'])
# a list that is long stands with one element a line, four places in from the line that it belongs to
def spread(xs):
    xs = list(xs); line = several(xs)
    return line if len(line) <= 110 else '\n    ' + '\n    ∷ '.join(xs + ['[]'])
def vector(v): return several(map(number, v))
def matrix(m): return spread('(' + vector(r) + ')' for r in m)
def whole(ns): return several(map(str, ns))
def flat(ms): return whole(n for m in ms for n in m)
def truth(b): return 'true' if b else 'false'
def chosen(c): return 'Scanning' if c.scanning else 'Listing'
def after(name, text): return name + ' =' + (text if text.startswith('\n') else ' ' + text)
def record(pairs): return 'record {\n' + ''.join('  ' + after(n, str(t)).replace('\n', '\n  ') + ';\n' for n, t in pairs) + '}'
def pose(p): return record(zip(('theta', 'ra', 'dec', 'scale'), map(number, p)))
def view(w):
    roll = 'record { cos_t = %s; sin_t = %s; ps = %s }' % tuple(number(w[n]) for n in ('cos_t', 'sin_t', 'ps'))
    return record((('basis', matrix(w['basis'])), ('roll', roll), ('cut', number(w['cut']))))
def sums(t):
    both = record((('ata', matrix(t['ata'])), ('atb', vector(t['atb']))))
    return record((('sums', both), ('n', t['n'])))
def rows_of(rs):
    return spread('row_of (record { px = %s; py = %s; weight = %s }) (%s)' % (*map(number, s), vector(v)) for s, v in rs)
def predictions_of(qs):
    return spread('record { direction = %d; x = %s; y = %s }' % (j, number(x), number(y)) for j, x, y in qs)

# the imports of what a text cites; a projection cites what it projects
def imports(text):
    words = set()
    for line in text.split('\n'):
        if not line.startswith('--'): words.update(w.split('.')[0] for w in re.split('[ (){};,]+', line))
    lines = []
    for module, *names in map(str.split, CITED.strip().split('\n')):
        names = [n for n in names if n.strip('◌') in words]
        if names: lines.append('use %s.{%s}\n' % (module, ', '.join(names)))
    return ''.join(lines)

class Writer:
    def __init__(w, name, c, about, lent):
        w.name, w.c, w.out = name, c, []
        w.result, w.seen = lent, {}
        c.run()
        made = 'Written by tools/rows/rows.py: the values are those of its model, and the check computes every equation. Assumes nothing.'
        w.head = '-- %s\n-- %s\n' % (about, made)
    def text(w):
        body = '\n'.join(w.out)
        return w.head + imports(body) + '\n' + body
    def value(w, kind, name, text):
        # a value is named once
        if (kind, text) in w.seen: return w.seen[kind, text]
        w.seen[kind, text] = name
        w.out.append('abbrev %s : %s\n%s\n' % (name, kind, after(name, text))); return name
    def computed(w, name, type, opens, parts=None, floats=True):
        proof = 'refl' if parts is None else 'record { ' + '; '.join(p + ' = refl' for p in parts) + ' }'
        w.out.append('%s : %s\nunfolding %s\n%s = %s\n' % (name, type, opens + (' ' + FLOATS if floats else ''), name, proof)); return name
    def joined(w, name, type, proof, opens='', pub=''):
        w.out.append('%s%s : %s\n%s%s = %s\n' % (pub, name, type, 'unfolding %s\n' % opens if opens else '', name, proof)); return name
    def heading(w, text): w.out.append('-- ---- %s\n' % text)

    def call(w):
        c, result = w.c, w.result
        w.places = 16 * (len(c.spots) + len(c.matches) + len(c.dirs))
        lent = w.lists(7, 'one64', 5, result)
        given = record((('matches', flat(c.matches)), ('rotation', matrix(c.rotation)), ('scale', number(c.scale)), ('mirror', truth(c.mirror)),
            ('radius', number(c.radius)), ('cut', number(c.cut)), ('limit', c.limit), ('rounds', c.rounds), ('matcher', chosen(c)), ('lent', lent)))
        call = record((('spots', 'spots'), ('directions', 'directions'), ('given', given)))
        w.out.append('-- The call, with its lent lists as they come.\nabbrev pub %s_call : Call\n%s\n' % (w.name, after(w.name + '_call', call)))
        for at, (n, vs) in enumerate((('spots', c.spots), ('directions', c.dirs))):
            lines = [' ∷ '.join(map(number, v)) for v in vs] + ['[]']
            w.out.insert(at, '-- The call\'s %s.\nabbrev %s : List Float\n%s =\n    %s\n' % (n, n, n, '\n    ∷ '.join(lines)))
        w.heading('what its run starts from')
        w.value('Fixed', 'k', record((('scale', number(c.scale)), ('mirror', truth(c.mirror)), ('radius', number(c.radius)),
            ('limit', c.limit), ('matcher', chosen(c)), ('count', len(c.dirs)), ('capacity', c.capacity), ('cut', number(c.cut)), ('far', number(c.far)))))
        p = w.value('Pose', 'pose_0', pose(c.start()))
        w.state = w.value('State', 'state_0', 'record { pose = %s; matches = %s; cache = empty }' % (p, flat(c.matches)))
        w.computed('begun', 'Begun %s_call k %s' % (w.name, w.state), 'checks', ('accepted', 'same', 'begins'), floats=False)
        w.poses = 1
        loop = w.loop()
        w.heading('the whole call')
        w.joined('%s_listed' % w.name, 'queries %s_call ≡ %s' % (w.name, w.listed), 'queried_call begun %s' % loop,
            pub='-- What each of its queries lists.\npub ')
        if c.answer['refusal']:
            w.outcome = record((('answer', 'no %d' % c.answer['refusal']), ('lent', w.left(result))))
            w.joined('%s_row' % w.name, 'outcome %s_call ≡ %s' % (w.name, w.outcome), 'refused_call begun %s' % loop, 'left', CAME)
        else: w.closing(loop)

    # lent lists by what they hold, and those that a call leaves
    def lists(w, n, x, i, result):
        return record((('numbers', 'replicate %d %d' % (w.places, n)), ('floats', 'replicate %d %s' % (w.places, x)),
            ('distances', 'replicate %d %s' % (w.c.distances, x)), ('indices', 'replicate %d %d' % (w.c.indices, i)), ('result', whole(result))))
    def left(w, result): return w.lists(0, 'zero64', 0, result)

    def newpose(w, p):
        text = pose(p)
        n = w.value('Pose', 'pose_%d' % w.poses, text)
        if n == 'pose_%d' % w.poses: w.poses += 1
        return n
    def looked(w, i, ms):
        rs = w.value('List Row', 'rows_%s' % i, rows_of(w.c.rows(ms)))
        w.computed('looked_%s' % i, 'rows spots directions (%s) ≡ %s' % (flat(ms), rs), 'rows', floats=False); return rs
    def viewed(w, i, v): return w.value('View', 'view_%s' % i, view(v))

    def passes(w, i, e, rs):
        # the passes of round i; answers the name of the equation on all of them, and their pose
        names = []
        for j, f in enumerate(e['fits'], 1):
            at = '%d_%d' % (i, j); p = w.newpose(f['p']); q = w.newpose(f['q'])
            v = w.viewed(at, f['view']); t = w.value('Counted', 'sums_%s' % at, sums(f['sums'][-1]))
            w.computed('pass_%s' % at, 'Pass k.cut %s %s %s %s\n    %s %s %s %s' % (
                rs, p, v, t, *map(argument, f['sol']), '%s %s %s' % (q, truth(f['sound']), truth(f['still']))),
                'view_of with_rows no_matches solved_sums moved sound still', ('enough', 'view', 'sums', 'solution', 'pose', 'soundness', 'stillness'))
            names.append((at, f))
        last = w.newpose(e['pose'] if e['fits'] else e['pose0']); n = len(names)
        fine = not e['fits'] or e['fits'][-1]['sound']
        if not names: proof = 'no_pass 9 k.cut %s %s refl' % (rs, last)
        else:
            at, f = names[-1]
            proof = '%s %d pass_%s' % ('unsound_pass' if not f['sound'] else 'last_pass', 10 - n, at)
            for j in range(n - 1, 0, -1): proof = 'next_pass %d pass_%s\n    (%s)' % (10 - j, names[j - 1][0], proof)
        w.joined('passes_%d' % i, 'fit_passes 10 k.cut %s %s ≡ passes_of %s %d %s' % (rs, w.newpose(e['pose0']), last, n, truth(fine)), proof)
        return last, n, fine

    def loop(w):
        c, states, ends = w.c, [w.state], []
        for i, e in enumerate(c.log, 1):
            w.heading('round %d' % i)
            rs = w.looked(i, e['matches0']); p, n, fine = w.passes(i, e, rs); s = states[-1]
            if not fine:
                w.joined('round_%d' % i, 'round k spots directions %s ≡ round_of (refuse 12) [] %d 0' % (s, n),
                    'unsound_round k spots directions %s looked_%d passes_%d' % (s, i, i))
                ends.append('refused'); break
            v = w.viewed(i, e['view']); vs = w.value('List Float', 'residuals_%d' % i, spread(map(number, e['residuals'])))
            st = 'None' if e['stats'] is None else '(Some (record { median = %s; sigma = %s }))' % tuple(map(number, e['stats']))
            ms, kept, r = flat(e['matches0']), flat(e['clipped']), argument(e['r'])
            w.computed('measured_%d' % i, 'Measured k %s %s (%s) %s %s\n    %s\n    (%s) %s' % (rs, p, ms, v, vs, st, kept, r),
                'view_of residuals statistics clipped adaptive_px', ('view', 'values', 'summary', 'clip', 'radius'))
            if e['need']: b = w.value('List Float', 'centre_%d' % i, vector(e['boresight']))
            m = w.value('List (List Float)', 'camera_%d' % i, matrix(e['rows']))
            near = e['cache'][2]; qs = w.value('List Prediction', 'predictions_%d' % i, predictions_of(e['qs']))
            cache = 'full %s %s.theta (%s)' % (b, p, whole(near)) if e['need'] else 'full %s %s %s' % w.cache
            y = e.get('compared', 0) # a round that is refused compares nothing
            if 'new' not in e: x = 'refuse 13'; ends.append('refused')
            else:
                goes = len(e['new']) >= 4 and sorted(e['new']) != sorted(e['clipped'])
                st = w.value('State', 'state_%d' % i, record((('pose', p), ('matches', flat(e['new'] if goes else e['clipped'])), ('cache', cache))))
                x = '%s %s' % ('go' if goes else 'done', st); ends.append('go' if goes else 'done'); states.append(st)
            if e['need']:
                listed = '((%s) ∷ [])' % whole(e['listed'])
                w.computed('queried_%d' % i, 'Queried k spots directions %s (%s) %s\n    %s (%s) %s\n    (%s) %s (%s) %s (%s) %d' % (
                    p, kept, r, b, vector(e['axis']), argument(e['least']), whole(e['listed']), m, whole(near), qs, x, y),
                    'boresight axis32 least_cos scanned camera_rows pruned predictions points_of associated compared',
                    ('centre', 'narrow', 'least', 'scan', 'camera', 'cached', 'places', 'matcher', 'counted'))
                if i == 1: search = 'first_search queried_1'
                else:
                    w.computed('drifted_%d' % i, 'drifted k %s %s %s ≡ true' % (p, *w.cache[:2]), 'drifted')
                    search = 'new_search queried_%d %s %s %s drifted_%d' % (i, *w.cache, i)
                w.cache = (b, '%s.theta' % p, '(%s)' % whole(near))
            else:
                listed = '[]'
                w.computed('reused_%d' % i, 'Reused k spots directions %s (%s) %s\n    %s %s %s\n    %s %s (%s) %d' % (
                    p, kept, r, *w.cache, m, qs, x, y),
                    'drifted camera_rows predictions points_of associated compared', ('near', 'camera', 'places', 'matcher', 'counted'))
                search = 'same_search reused_%d' % i
            w.joined('round_%d' % i, 'round k spots directions %s ≡ round_of (%s) %s %d %d' % (s, x, listed, n, y),
                'whole_round k spots directions %s looked_%d passes_%d measured_%d\n    (%s)' % (s, i, i, i, search))
            w.last = states[-1]
            if ends[-1] != 'go': break
        count = len(ends); proof = ''
        for i in range(count, 0, -1):
            one = '%s_round k spots directions %d %s round_%d' % (ends[i - 1], c.rounds - i, states[i - 1], i)
            proof = one + (' (%s)' % proof if proof else ' (no_round k spots directions %s)' % w.last if ends[i - 1] == 'go' else '')
        passes = sum(len(e['fits']) for e in c.log); qs = w.listed = several('(' + whole(q) + ')' for q in c.queries)
        end = '(refused %d)' % c.answer['refusal'] if c.answer['refusal'] else '(ended %s)' % w.last
        if c.queries: qs = '(%s)' % qs
        most = max((e.get('compared', 0) for e in c.log), default=0)
        w.joined('run', 'loop k spots directions %d %s ≡ ran_of %s %d %d %s %d' % (c.rounds, w.state, end, count, passes, qs, most), proof)
        return 'run'

    def closing(w, run):
        e, a, c = w.c.closing, w.c.answer, w.c
        cleaned = w.clips(e)
        p = w.newpose(e['pose']); ms = flat(e['ms']); rs = w.looked('last', e['ms'])
        v = w.viewed('last', e['view']); vs = w.value('List Float', 'residuals_last', spread(map(number, e['residuals'])))
        t = w.value('Counted', 'normal', sums(e['sums'][-1]))
        cd = w.value('List (List Float)', 'matrix', matrix(a['cd'])); cov = w.value('List (List Float)', 'spread', matrix(a['cov']))
        w.computed('reported', 'Reported k %s %s %s %s\n    %s %s %s %s %s' % (p, rs, v, vs, argument(e['sum']), t, cd, argument(a['rms']), cov),
            'view_of residuals in_front sum_squares normal_matrix cd_from_theta root_mean covariance_from_normal',
            ('view', 'values', 'squares', 'normal', 'matrix', 'mean', 'spread'))
        result = [n for m in a['matches'] for n in m]; result += w.result[len(result):]
        counts = '%d %d %d %d' % (a['rounds'], a['passes'], a['queries'], a['comparisons'])
        report = record((('pose', pose(a['pose'])), ('cd', matrix(a['cd'])), ('rms', number(a['rms'])),
            ('covariance', matrix(a['cov'])), ('matches', ms)))
        w.outcome = record((('answer', 'ok (%s) %s' % (report, counts)), ('lent', w.left(result))))
        short = record((('answer', 'ok (report_of %s %s %s %s (%s)) %s' % (p, cd, argument(a['rms']), cov, ms, counts)), ('lent', w.left(result))))
        w.joined('%s_row' % w.name, 'outcome %s_call ≡ %s' % (w.name, short),
            'accepted_call begun %s\n    (%s) looked_last reported' % (run, cleaned), 'left', CAME)

    # the clips of the closing; answers the term for all of them
    def clips(w, e):
        made = []
        for j, g in enumerate(e['clips'], 1):
            assert g['stats'] is not None
            p, ms = w.newpose(g['p']), [n for m in g['ms'] for n in m]; kept = [n for m in g['kept'] or [] for n in m]
            rs = w.value('List Row', 'rows_clip_%d' % j, rows_of(w.c.rows(g['ms']))); v = w.viewed('clip_%d' % j, g['view'])
            vs = w.value('List Float', 'residuals_clip_%d' % j, spread(map(number, g['rs'])))
            answer, new = ('(Some %d)' % (len(kept) // 2), kept + ms[len(kept):]) if kept else ('None', ms)
            w.computed('clip_%d' % j, 'Clipping k spots directions %s (%s) %s %s %s\n    (record { median = %s; sigma = %s })\n    %s (%s)' % (
                p, whole(ms), rs, v, vs, *map(number, g['stats']), answer, whole(new)),
                'rows view_of residuals statistics mad_clip_matches', ('enough', 'looked', 'view', 'values', 'summary', 'clip'))
            if kept:
                rs = w.value('List Row', 'rows_refit_%d' % j, rows_of(w.c.rows(g['kept'])))
                t = w.value('Counted', 'sums_refit_%d' % j, sums(g['sums'][-1]))
                q = w.newpose(g['q'])
                w.joined('kept_%d' % j, 'taken %s (%s)\n    (%s)\n    ≡ %s' % (answer, whole(ms), whole(new), whole(kept)), 'refl', 'taken')
                w.computed('refit_%d' % j, 'Refit k spots directions %s (%s) %s %s %s\n    %s %s %s %s' % (
                    p, whole(kept), rs, v, t, *map(argument, g['sol']), q),
                    'rows view_of with_rows no_matches solved_sums moved sound', ('looked', 'view', 'sums', 'solution', 'pose', 'soundness'))
            made.append(kept)
        n = len(made)
        if made and not made[-1]: n -= 1; proof = 'last_clip %d clip_%d' % (2 - n, n + 1)
        else: proof = 'no_clip k spots directions %d %s (%s) refl' % (2 - n, w.newpose(e['pose']), flat(e['ms']))
        for j in range(n, 0, -1): proof = 'next_clip %d clip_%d kept_%d refit_%d\n    (%s)' % (3 - j, j, j, j, proof)
        return proof

CALLS = (
    ('far_turn', 'FarTurn', far_turn, 'A fit pass that turns the camera past 1,024: refusal 12.', list(range(31, 39))),
    ('many_pairs', 'ManyPairs', many_pairs, 'More pairs within the radius than the candidate lists hold: refusal 13.', list(range(31, 43))),
    ('no_list', 'NoList', no_list, 'The same with the matcher that scans: it needs no place for a pair, and compares none.', list(range(31, 43))),
    ('second_query', 'SecondQuery', second_query,
        'Two rounds: the matches of the first turn the camera past the margin, and the second queries anew.', list(range(31, 43))),
    ('one_clip', 'OneClip', one_clip, 'A clip: one of six starting matches lies too far off, and five are left.', list(range(31, 45))),
    ('last_clip', 'LastClip', last_clip, 'Two rounds with one query, used up, and a clip with its fit at the closing.', list(range(31, 47))),
    ('grazing', 'Grazing', grazing,
        'A direction whose denominator is the cut: a query lists it, and it is neither predicted nor cached, though in the second round it would fit.',
        list(range(31, 43))),
)

TOP = '''-- Whole calls, computed by the check from the written meaning: each comes to the answer that the reference gives, after these queries.
-- Written by tools/rows/rows.py. Assumes nothing.
use Rattle.std.specs.Prelude.{◌≡◌, List, [], ◌∷◌, ℕ, replicate}
use Rattle.rounding.specs.Arith.{f64, zero64}
use Rattle.entry.specs.Arguments.{Call}
use Rattle.wcs_refine.specs.Call.{Outcome, no, ok, outcome, queries}
'''

ROW = '''
-- A call, its answer with the lists that it leaves, and what each of its queries lists.
pub record Row : Type 0 where
  pub call : Call
  pub answered : Outcome
  pub listed : List (List ℕ)

-- What a row says of the written meaning of its call (`outcome` and `queries` in Call.antt of wcs_refine).
pub record Holds (r : Row) : Type 0 where
  pub answers : outcome r.call ≡ r.answered
  pub lists : queries r.call ≡ r.listed

-- Every row of a list holds.
abbrev pub All : List Row → Type 0
All [] = Unit
All (r ∷ rs) = Holds r × All rs
'''

def main(place, names):
    done = []
    for name, module, make, about, lent in CALLS:
        if names and name not in names: continue
        w = Writer(name, make(), about, lent); w.call()
        with open(os.path.join(place, module + '.antt'), 'w') as f: f.write(w.text())
        row = record((('call', name + '_call'), ('answered', w.outcome), ('listed', w.listed)))
        done.append((name, module, about, row))
    top = TOP + ''.join('use Rattle.calls.specs.%s.{%s_call, %s_row, %s_listed}\n' % (m, n, n, n) for n, m, a, r in done) + ROW
    for n, m, a, r in done: top += '\n-- %s\nabbrev pub %s : Row\n%s = %s\n' % (a, n, n, r)
    top += '\n-- The rows, in this order.\nabbrev pub rows : List Row\nrows = %s\n' % several(n for n, m, a, r in done)
    for n, m, a, r in done: top += '\n%s_holds : Holds %s\n%s_holds = record { answers = %s_row; lists = %s_listed }\n' % (n, n, n, n, n)
    top += '\n-- Every row holds.\npub calls : All rows\ncalls = %stt%s\n' % (''.join('(%s_holds, ' % n for n, m, a, r in done), ')' * len(done))
    with open(os.path.join(place, 'Calls.antt'), 'w') as f: f.write(top)
    with open(os.path.join(place, 'Lib.antt'), 'w') as f:
        f.write(''.join('pub mod %s\n' % m for m in ['Computed', 'Instance', 'Queried', 'Steps'] + [m for n, m, a, r in done] + ['Calls']))

if __name__ == '__main__':
    words = sys.argv[1:]
    if words[:1] == ['--to']: main(words[1], words[2:])
    else: main(PLACE, words)
