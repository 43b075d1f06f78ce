"""For compare/trade/run: what each program makes of a file. No exit status is trusted; nothing is answered where nothing was painted."""
import json
import os
import re
import shutil
import subprocess
from pathlib import Path

WIDTH = 1024
QUIET = {'stdout': subprocess.PIPE, 'stderr': subprocess.PIPE}


def grid(path, values):
    """Two equal rows: GMT takes no single one."""
    head = 'ncols %d\nnrows 2\nxllcorner 0\nyllcorner 0\ncellsize 1\n' % len(values)
    line = ' '.join(map(repr, values)) + '\n'
    path.write_text(head + line + line)


def by_gdal(raster, table, out):
    out.unlink(missing_ok=True)
    subprocess.run(['gdaldem', 'color-relief', raster, table, out, '-of', 'ENVI', '-alpha', '-q'], **QUIET)
    if not out.exists():
        return None
    flat = out.read_bytes()
    bands = [flat[i * 2 * WIDTH:i * 2 * WIDTH + WIDTH] for i in range(4)]
    return list(zip(*bands)) if len(flat) == 8 * WIDTH else None


def by_gmt(raster, table, out):
    out.unlink(missing_ok=True)
    subprocess.run(['gmt', 'grdimage', '%s=gd' % raster, '-C%s' % table, '-A%s' % out, '-Jx1i'], cwd=out.parent, **QUIET)
    if not out.exists():
        return None
    # of a gray table the image is gray
    flat = out.read_bytes()
    channels = 3 if flat.startswith(b'P6') else 1
    flat = flat[-2 * WIDTH * channels:]
    return [tuple(flat[channels * i:channels * (i + 1)]) * (3 // channels) for i in range(WIDTH)]


# the Python that QGIS belongs to
PYTHON = os.environ.get('QGIS_PYTHON', '/usr/bin/python3')


def has_qgis():
    return subprocess.run([PYTHON, '-c', 'import qgis.core'], **QUIET).returncode == 0


def by_qgis(jobs, work):
    """All at once, since QGIS is slow to start: a line of points for each table, and one of colours back."""
    lines = [json.dumps({'table': str(table), 'points': points}) for table, points in jobs]
    env = dict(os.environ, QT_QPA_PLATFORM='offscreen', XDG_RUNTIME_DIR=str(work))
    ran = subprocess.run([PYTHON, Path(__file__).resolve().parent / 'qgis.py'], input='\n'.join(lines), text=True, env=env, **QUIET)
    return [json.loads(line) for line in ran.stdout.splitlines()]


GIMP = '''(define (one name) (display "@") (display name) (newline)
  (let ((v (cadr (gimp-gradient-get-custom-samples name %d at FALSE))))
    (let loop ((i 0)) (if (< i (vector-length v))
      (begin (display (inexact->exact (round (* (vector-ref v i) 255000000)))) (display " ") (loop (+ i 1))))) (newline)))
(gimp-gradients-refresh)
(for-each one (cadr (gimp-gradients-get-list ""))) (gimp-quit 0)'''


def by_gimp(files, points, work):
    """GIMP loads a folder of gradients and says the colours of each, by its name."""
    home = work / 'gimp'
    for folder in ('gradients', 'none'):
        (home / folder).mkdir(parents=True)
    for file in files:
        shutil.copy(file, home / 'gradients')
    nothing = ''.join('(%s-path "%s/none")\n' % (what, home) for what in 'brush pattern palette dynamics tool-preset mypaint-brush'.split())
    (home / 'gimprc').write_text(nothing + '(gradient-path "%s/gradients")\n' % home)
    script = '(define at #(%s))\n' % ' '.join(map(repr, points)) + GIMP % len(points)
    env = dict(os.environ, GIMP2_DIRECTORY=str(home), HOME=str(home), LC_ALL='C.UTF-8')
    ran = subprocess.run(['gimp-console', '-i', '-d', '-f', '-c', '-b', '-'], input=script, text=True, env=env, timeout=900, **QUIET)
    named = dict(re.findall(r'@(.*)\n([-0-9 ]+)', ran.stdout))
    shown = {}
    for name, numbers in named.items():
        flat = [int(x) / 1e6 for x in numbers.split()]
        shown[name] = [tuple(flat[4 * i:4 * i + 4]) for i in range(len(flat) // 4)]
    return shown


def by_inkscape(file, out):
    """The stops of the gradient that Inkscape made of it: each a place and a colour."""
    out.unlink(missing_ok=True)
    subprocess.run(['inkscape', file, '--export-plain-svg', '--export-filename=%s' % out], **QUIET)
    if not out.exists():
        return None
    stops = re.findall(r'<stop\s([^>]*)/>', out.read_text())
    read = []
    for stop in stops:
        colour, place = re.search(r'#([0-9a-f]{6})', stop), re.search(r'offset="([^"]+)"', stop)
        if colour and place:
            read.append((float(place[1]), tuple(bytes.fromhex(colour[1]))))
    return read
