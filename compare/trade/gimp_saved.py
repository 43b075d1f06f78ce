#!/usr/bin/env python3
"""compare/trade/gimp_saved.py FOLDER [FILE ..]: .ggr files as GIMP 2.10 itself saves them, in batch, without a display.

Each gradient given (those that GIMP has, unless files are named) is copied, the copy is edited, and GIMP saves it into FOLDER:
one file for each of nine edits. They are read by `compare/run saved-files FOLDER`, and their colours are held against GIMP's
own by gimp_colours.py. Needs gimp of Debian."""
import glob
import os
import shutil
import subprocess
import sys
import tempfile

EDITS = {
    'copied': '#t',
    'flipped': '(gimp-gradient-segment-range-flip g 0 -1)',
    'halved': '(gimp-gradient-segment-range-split-midpoint g 0 -1)',
    'thirds': '(gimp-gradient-segment-range-split-uniform g 0 0 3)',
    'redistributed': '(gimp-gradient-segment-range-redistribute-handles g 0 -1)',
    'replicated': '(gimp-gradient-segment-range-replicate g 0 -1 3)',
    'curved': '(gimp-gradient-segment-range-set-blending-function g 0 -1 1)',
    'hued': '(gimp-gradient-segment-range-set-coloring-type g 0 -1 1)',
    'Море 海': '(gimp-gradient-segment-range-move g 0 0 0.0123456789 FALSE)',
}
SCHEME = '''
(define (copy name word edit)
  (let ((g (car (gimp-gradient-duplicate name))))
    (set! g (car (gimp-gradient-rename g (string-append name " " word))))
    (edit g)))
(define (all word edit)
  (for-each (lambda (name) (copy name word edit)) given))
'''


def main():
    folder, files = os.path.abspath(sys.argv[1]), sys.argv[2:]
    os.makedirs(folder, exist_ok=True)
    files = files or sorted(glob.glob('/usr/share/gimp/2.0/gradients/*.ggr'))
    with tempfile.TemporaryDirectory() as home:
        for sub in ('given', 'none', 'scripts'):
            os.mkdir(f'{home}/{sub}')
        for i, file in enumerate(files):
            shutil.copy(file, f'{home}/given/{i}.ggr')
        for file in glob.glob('/usr/share/gimp/2.0/scripts/*.init'):
            shutil.copy(file, f'{home}/scripts')
        with open(f'{home}/gimprc', 'w', encoding='utf-8') as rc:
            for kind in 'brush pattern palette dynamics tool-preset mypaint-brush'.split():
                rc.write(f'({kind}-path "{home}/none")\n')
            rc.write(f'(gradient-path "{home}/given:{folder}")\n(gradient-path-writable "{folder}")\n')
            plug_in = glob.glob('/usr/lib*/gimp/2.0/plug-ins/script-fu')[0]
            rc.write(f'(script-fu-path "{home}/scripts")\n(swap-path "{home}/none")\n(plug-in-path "{plug_in}")\n')
        lines = [SCHEME, '(gimp-gradients-refresh)', '(define given (cadr (gimp-gradients-get-list "")))']
        for word, edit in EDITS.items():
            lines.append(f'(all "{word}" (lambda (g) {edit}))')
        lines += ['(gimp-gradients-refresh)', '(gimp-quit 1)']
        env = dict(os.environ, GIMP2_DIRECTORY=home, LC_ALL='C.UTF-8', HOME=home)
        gimp = ['gimp-console', '-i', '-d', '-f', '-c', '-b', '-']
        subprocess.run(gimp, env=env, input='\n'.join(lines) + '\n', text=True, stdout=subprocess.DEVNULL, timeout=900, check=False)
    print(len(glob.glob(f'{folder}/*.ggr')), 'files saved of', len(files), 'gradients')


if __name__ == '__main__':
    main()
