"""The two programs that are asked, and the crate's answers in our numbers."""
import os
import subprocess
import sys

HERE = os.path.dirname(os.path.abspath(__file__))
ROOT = os.path.dirname(os.path.dirname(HERE))
OTHER = 'no container'
SENTINEL = 'ok maxminddb 0.32.0 oracle 1'
# Walks and verifications that take more places than this are not asked: the crate might not end.
PLACES = 1000000

OPENING = (
    ('could not find', 1), ('binary_format_major_version -', 3), ('ip_version -', 4), ('node_count -', 5), ('build_epoch -', 6),
    ('record_size -', 7), ('beyond the metadata section', 8),
)
NETWORK = (('data pointer resolves', 11), ('traversal exceeded', 12))
VERDICT = (('database_type -', 17), ('description -', 18), ('iterations)', 19), ('data separator', 20)) + NETWORK


# ---- both sides ----

class Sides:
    def __init__(self, work):
        oracle = os.environ['ORACLE']
        self.crate = os.path.join(oracle, 'oracle')
        if not os.access(self.crate, os.X_OK):
            subprocess.run([os.path.join(oracle, 'build'), os.path.join(work, 'oracle')], check=True, stdout=sys.stderr)
            self.crate = os.path.join(work, 'oracle', 'oracle')
        archive = os.path.join(ROOT, 'target', 'staticlib', 'libexports.a')
        if not os.path.exists(archive):
            subprocess.run([os.path.join(ROOT, 'tools', 'staticlib')], check=True, stdout=sys.stderr)
        self.ours = os.path.join(work, 'answer')
        subprocess.run(['cc', '-O2', '-Wall', '-Wextra', '-I', os.path.join(ROOT, 'include'), '-o', self.ours,
                        os.path.join(HERE, 'answer.c'), archive], check=True)

    def ask(self, program, lines):
        run = subprocess.run([program] + ([str(PLACES)] if program == self.ours else []), input=('\n'.join(lines) + '\n').encode(),
                             stdout=subprocess.PIPE)
        answers = run.stdout.decode().split('\n')
        answers.pop()
        if run.returncode != 0:
            answers.append('exit %d' % run.returncode)
        return answers


# ---- the crate's answers in our numbers ----

def numbered(question, answer, room):
    """An answer of the crate as we would give it; `room` is the data section's length."""
    what = question[0]
    if answer.startswith('err '):
        if what == 'o':
            return 'err %d' % next((n for t, n in OPENING if t in answer), 2)
        if what in 'tpr':
            return 'err %d' % (14 if int(question.split(' ')[2]) < room else 15)
        kind = answer.split(' ', 2)[1]
        if what in 'lw':
            return 'err %d' % ({'inp': 10, 'net': 16}.get(kind) or next((n for t, n in NETWORK if t in answer), 14))
        return 'err %d' % next((n for t, n in VERDICT if t in answer), 14)
    if what == 'l' and answer[:2] in ('d ', 'n '):
        return answer.rpartition(' ')[0]
    if what == 'r' and answer.startswith('ok '):
        # of any other kind it has the header alone, where we read the value
        words = answer.split(' ')
        return ' '.join(words[:3]) if words[1] in ('7', '11') else OTHER
    return answer
