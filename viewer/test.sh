#!/usr/bin/env bash
# Tries the page viewer/index.html in a real browser, headless and from disk: it draws frames with the built program,
# opens them in the page, compares what the page tells with what the program printed, looks whether the picture changes
# where it must, and leaves screenshots in viewer/out. It prints a line for each thing that it found right.
#
#     viewer/test.sh [TILE X Y]
#
# TILE is an HGT tile and (X, Y) a viewer on it; without them it is the sample tile and a viewer in its middle. CLIPMAP
# may name another program to draw with than ../clipmap.
set -euo pipefail
top=$(cd "$(dirname "${BASH_SOURCE[0]}")/.." && pwd)
program=${CLIPMAP:-$top/clipmap}
out=$top/viewer/out

missing() {
    echo "viewer/test.sh: $1 is missing. Install it, on Debian by: apt-get install $2" >&2
    exit 2
}
[ $# -eq 0 ] || [ $# -eq 3 ] || { echo "usage: viewer/test.sh [TILE X Y]" >&2; exit 2; }
command -v python3 >/dev/null || missing python3 python3
browser=$(command -v chromium || command -v chromium-browser || command -v google-chrome) ||
    missing "the browser Chromium" chromium

work=$(mktemp -d)
trap 'rm -rf "$work"' EXIT
mkdir -p "$out"
rm -f "$out"/*.png

[ $# -eq 3 ] || set -- "$top/examples/N36W085.hgt" 172 172
tile=$(basename "$1") x=$2 y=$3
cp "$1" "$work/$tile"
cd "$work"

# Draws a frame NAME.obj of K and L at a viewer, and keeps the line that the program prints as NAME.line.
draw() {
    local name=$1 line
    shift
    line=$("$program" frame "$@" "$name.obj" "$tile") || {
        echo "viewer/test.sh: the program answers “$line” to: frame $* $name.obj $tile" >&2
        exit 1
    }
    echo "$line" >"$name.line"
}
draw frame 6 6 "$x" "$y"
for i in 0 1 2 3 4 5 6 7 8 9; do
    draw "out-$i" 6 6 $((x - 40 + 9 * i)) $((y + 30 - 7 * i))
done
draw large 8 12 "$x" "$y"

python3 - "$browser" "$top/viewer/index.html" "$out" <<'PY'
import base64, json, os, re, signal, subprocess, sys, time
browser, page, out = sys.argv[1:]
signal.alarm(600)


class Browser:
    """A tab of a browser, driven by the DevTools protocol: JSON over two pipes, with a zero byte after each message."""

    def __init__(self, program):
        take, self.give = os.pipe()
        self.take, give = os.pipe()
        # The browser reads its file 3 and writes its file 4; the detour is for pipes that have these numbers here.
        hand = lambda: (os.dup2(take, 103), os.dup2(give, 104), os.dup2(103, 3), os.dup2(104, 4))
        words = ['--headless', '--remote-debugging-pipe', '--user-data-dir=' + os.path.abspath('profile'),
                 '--no-first-run', '--disable-background-networking',
                 '--use-angle=swiftshader', '--enable-unsafe-swiftshader']
        if os.getuid() == 0:
            words.append('--no-sandbox')
        self.process = subprocess.Popen([program] + words, close_fds=False, preexec_fn=hand,
                                        stdout=subprocess.DEVNULL, stderr=open('browser.log', 'w'))
        os.close(take), os.close(give)
        self.rest, self.calls, self.session, self.errors = b'', 0, None, []
        target = self.call('Target.createTarget', url='about:blank')['targetId']
        self.session = self.call('Target.attachToTarget', targetId=target, flatten=True)['sessionId']
        for domain in 'Page', 'Runtime', 'Log':
            self.call(domain + '.enable')

    def message(self):
        while b'\0' not in self.rest:
            more = os.read(self.take, 1 << 20)
            if not more:
                sys.exit('viewer/test.sh: the browser ended: ' + open('browser.log').read()[-2000:])
            self.rest += more
        text, self.rest = self.rest.split(b'\0', 1)
        return json.loads(text)

    def call(self, method, **words):
        self.calls += 1
        request = {'id': self.calls, 'method': method, 'params': words}
        if self.session:
            request['sessionId'] = self.session
        os.write(self.give, json.dumps(request).encode() + b'\0')
        while True:
            answer = self.message()
            if answer.get('method') == 'Runtime.exceptionThrown':
                self.errors.append(answer['params']['exceptionDetails'])
            if answer.get('method') == 'Log.entryAdded' and answer['params']['entry']['level'] == 'error':
                self.errors.append(answer['params']['entry'])
            if answer.get('id') == self.calls:
                assert 'error' not in answer, (method, answer)
                return answer['result']

    def value(self, expression):
        answer = self.call('Runtime.evaluate', expression=expression, returnByValue=True, awaitPromise=True)
        assert 'exceptionDetails' not in answer, answer
        return answer['result'].get('value')

    def text(self, name):
        return self.value('document.getElementById(%s).textContent' % json.dumps(name))

    def window(self, width, height):
        self.call('Emulation.setDeviceMetricsOverride', width=width, height=height, deviceScaleFactor=1, mobile=False)
        self.drawn()

    def drawn(self):
        """Waits until what was asked for is on the screen."""
        self.value('new Promise(done => requestAnimationFrame(() => requestAnimationFrame(() => done(1))))')

    def open(self, names):
        """Chooses files in the page, waits until they are read, and tells how many seconds that took."""
        begin = time.time()
        files = self.call('Runtime.evaluate', expression='document.getElementById("files")')['result']['objectId']
        self.call('DOM.setFileInputFiles', objectId=files, files=[os.path.abspath(name) for name in names])
        self.read()
        return time.time() - begin

    def read(self):
        while not self.value('document.getElementById("loading").hidden'):
            time.sleep(0.05)
        self.drawn()

    def drop(self, name):
        data = {'items': [], 'files': [os.path.abspath(name)], 'dragOperationsMask': 1}
        for kind in 'dragEnter', 'dragOver', 'drop':
            self.call('Input.dispatchDragEvent', type=kind, x=300, y=300, data=data)
        self.read()

    def screenshot(self, name):
        data = self.call('Page.captureScreenshot')['data']
        open(os.path.join(out, name + '.png'), 'wb').write(base64.b64decode(data))

    def picture(self):
        """The part of the window that the terrain is drawn in, as a data address."""
        self.drawn()
        box = self.value('document.getElementById("picture").getBoundingClientRect().toJSON()')
        clip = dict(x=box['x'], y=box['y'], width=box['width'], height=box['height'], scale=1)
        return 'data:image/png;base64,' + self.call('Page.captureScreenshot', clip=clip)['data']

    def pixels(self, pictures, tell):
        """What a JavaScript function tells of the pixels of pictures, each pixel a number."""
        return self.value('''(async () => {
            const pixels = [];
            for (const address of %s) {
                const image = new Image();
                image.src = address;
                await image.decode();
                const surface = new OffscreenCanvas(image.width, image.height).getContext("2d");
                surface.drawImage(image, 0, 0);
                pixels.push(new Uint32Array(surface.getImageData(0, 0, image.width, image.height).data.buffer));
            }
            return (%s)(...pixels);
        })()''' % (json.dumps(pictures), tell))

    def colours(self, picture):
        return self.pixels([picture], 'pixels => new Set(pixels).size')

    def difference(self, one, other):
        """The share of pixels in which two pictures differ."""
        return self.pixels([one, other], '(a, b) => a.filter((pixel, i) => pixel !== b[i]).length / a.length')

    def slide(self, name, place):
        self.value('{ const at = document.getElementById("%s"); at.value = %d; at.oninput() }' % (name, place))

    def key(self, key, text=''):
        self.call('Input.dispatchKeyEvent', type='keyDown', key=key, text=text)
        self.call('Input.dispatchKeyEvent', type='keyUp', key=key)

    def drag(self, button, buttons):
        for kind, x, y in ('mousePressed', 300, 300), ('mouseMoved', 360, 330), ('mouseReleased', 360, 330):
            self.call('Input.dispatchMouseEvent', type=kind, x=x, y=y, button=button, buttons=buttons, clickCount=1)

    def wheel(self):
        self.call('Input.dispatchMouseEvent', type='mouseWheel', x=300, y=300, deltaX=0, deltaY=-200)

    def pinch(self):
        for kind, reach in ('touchStart', 50), ('touchMove', 90), ('touchEnd', None):
            fingers = [dict(x=300 - reach, y=300, id=0), dict(x=300 + reach, y=300, id=1)] if reach else []
            self.call('Input.dispatchTouchEvent', type=kind, touchPoints=fingers)

    def close(self):
        self.session = None
        self.call('Browser.close')
        self.process.wait(20)


def frame_of(name):
    """What the page has to tell of a frame, by the program's line and the file."""
    line = re.fullmatch(r'frame (\d+) vertices (\d+) triangles (\d+)\n', open(name + '.line').read())
    text = open(name + '.obj').read()
    heights = [float(line.split(' ')[2]) for line in re.findall('^v .*$', text, re.M)]
    return {
        'number': line[1], 'vertices': line[2], 'triangles': line[3],
        'viewer': re.search('^# viewer (.*)$', text, re.M)[1],
        'regions': [list(words) for words in re.findall(r'^# level (\d+) active (\S+) (\S+) (\S+) (\S+)$', text, re.M)],
        'heights': [min(heights), max(heights)],
    }


def told(tab):
    """What the page tells of the frame that it shows."""
    number = lambda name: tab.text(name).replace(',', '')
    return {
        'number': number('number'), 'vertices': number('vertices'), 'triangles': number('triangles'),
        'viewer': tab.text('viewer'),
        'regions': tab.value('Array.from(regions.rows, row => Array.from(row.cells, cell => cell.textContent))'),
        'heights': [float(height) for height in number('heights').replace(' m', '').split(' to ')],
    }


def right(what, is_right, seen):
    if is_right:
        return print('right: ' + what, flush=True)
    print('WRONG: %s. What was seen: %r' % (what, seen), flush=True)
    tab.screenshot('wrong')
    tab.close()
    sys.exit('viewer/test.sh: failed; viewer/out/wrong.png shows the page')


tab = Browser(browser)
tab.window(1280, 800)
tab.call('Page.navigate', url='file://' + page)
while tab.value('document.readyState') != 'complete':
    time.sleep(0.05)
empty = tab.picture()

tab.open(['frame.obj'])
now = told(tab)
right("the told numbers of a frame of six levels are the program's",
      now == frame_of('frame') and len(now['regions']) == 6, now)
picture = tab.picture()
seen = tab.colours(picture), tab.difference(empty, picture)
right('the picture has many colours and differs from the empty one', seen[0] > 500 and seen[1] > 0.3, seen)
tab.screenshot('frame')

for box in 'wires', 'levels', 'stitches', 'seated':
    tab.value('document.getElementById("%s").click()' % box)
    seen = tab.difference(picture, tab.picture())
    tab.screenshot(box)
    tab.value('document.getElementById("%s").click()' % box)
    right('the switch %s changes the picture, and back' % box,
          seen > 0.001 and tab.difference(picture, tab.picture()) == 0, seen)

hands = {
    'a drag': lambda: tab.drag('left', 1), 'a right drag': lambda: tab.drag('right', 2), 'the wheel': tab.wheel,
    'a pinch': tab.pinch, 'an arrow': lambda: tab.key('ArrowLeft'), 'a plus': lambda: tab.key('+', '+'),
}
tab.drag('left', 1)                     # from now on the picture has the border of what has the keys
tab.key('Home')
picture = tab.picture()
for name, move in hands.items():
    move()
    seen = tab.difference(picture, tab.picture())
    tab.key('Home')
    right('%s moves the camera, and Home moves it back' % name,
          seen > 0.01 and tab.difference(picture, tab.picture()) == 0, seen)


def scale(place):
    tab.slide('scale', place)
    return tab.text('scaleWords')


right('the vertical scale begins at 1/30', tab.text('scaleWords') == '1/30: 30 m samples', tab.text('scaleWords'))
seen = scale(2), tab.difference(picture, tab.picture())
right('it can be 1/90, and that changes the picture', seen[0] == '1/90: 90 m samples' and seen[1] > 0.05, seen)
tab.screenshot('flat')
scale(5)

tab.open(['out-%d.obj' % i for i in reversed(range(10))])
seen, pictures, marks = [], [], set()
for i in range(10):
    tab.slide('when', i)
    seen.append(told(tab))
    pictures.append(tab.picture())
    marks.add(tab.value('marker.hidden ? "" : marker.style.transform'))
right("the told numbers of a flight of ten frames are the program's",
      seen == [frame_of('out-%d' % i) for i in range(10)], seen)
seen = [tab.difference(*pair) for pair in zip(pictures, pictures[1:])]
right('each picture of the flight differs from the next', min(seen) > 0.001, seen)
right('the mark of the viewer goes with it', len(marks - {''}) == 10, marks)
points = tab.value('document.querySelector("#plot polyline").points.numberOfItems')
right('the plot has ten points', points == 10, points)
tab.screenshot('flight')

when = 'document.getElementById("when").value'
tab.key(' ', ' ')
seen = set()
for _ in range(40):
    seen.add(tab.value(when))
    time.sleep(0.05)
tab.key(' ', ' ')
place = tab.value(when)
time.sleep(0.5)
right('the flight plays and pauses', len(seen) > 3 and tab.value(when) == place, seen)

before, picture = told(tab), tab.picture()
lines = open('frame.obj').read().split('\n')
face, last = lines.index(next(line for line in lines if line.startswith('f '))), len(lines) - 1
bad = [(1, '# viewer'), (1000, 'v 12 high 9'), (face, 'v 1 2.0 3'), (face + 9, 'f 1 2 99999999'), (last, 'f 1 2')]
for at, text in bad:
    open('bad.obj', 'w').write('\n'.join(lines[:at] + [text] + lines[at + 1:]))
    tab.open(['out-3.obj', 'bad.obj'])
    fault = 'bad.obj is no frame: line %d, "%s"' % (at + 1, text)
    right('a bad file is told: ' + fault, fault in tab.text('faultWords'), tab.text('faultWords'))
tab.screenshot('fault')
tab.value('document.getElementById("faultSeen").click()')
stays = told(tab) == before and tab.difference(picture, tab.picture()) == 0
right('and what was open stays', stays and tab.text('whenWords').endswith(' of 10'), told(tab))

tab.window(390, 844)
tab.drop('frame.obj')
right('a dropped file opens', told(tab) == frame_of('frame'), told(tab))
tab.screenshot('narrow')
tab.window(1280, 800)

tab.value("""{
    window.steps = 0;
    const watcher = new MutationObserver(seen => { steps += seen.length });
    watcher.observe(document.getElementById("progress"), { attributes: true });
}""")
begin = time.time()
read = tab.open(['large.obj'])
tab.picture()
shown = time.time() - begin
right("the told numbers of the large frame are the program's", told(tab) == frame_of('large'), told(tab))
right('its progress was shown', tab.value('steps') > 10, tab.value('steps'))
tab.screenshot('large')
right('the page had no error', tab.errors == [], tab.errors)
tab.close()
size = os.path.getsize('large.obj') / 1e6
print('a frame of %.1f MB was read in %.1f seconds and seen after %.1f' % (size, read, shown))
print('viewer/test.sh: all right; the screenshots are in ' + out)
PY
