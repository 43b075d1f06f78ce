// Texts and edges in the page whose contrast is too low, each in words. A text wants 4.5, a large one 3, an edge of a control and
// a line that is read 3 (WCAG 2.2, 1.4.3 and 1.4.11). The functions but the last are run in the page, as they stand here.

function rgba(color) {
    const [r, g, b, a = 1] = color.match(/[\d.]+/g).map(Number);
    return [r, g, b, a];
}

function luminance(color) {
    const [r, g, b] = color.slice(0, 3).map(c => (c / 255 <= 0.04045 ? c / 255 / 12.92 : ((c / 255 + 0.055) / 1.055) ** 2.4));
    return 0.2126 * r + 0.7152 * g + 0.0722 * b;
}

function ratio(x, y) {
    const [light, dark] = [luminance(x), luminance(y)].sort((a, b) => b - a);
    return (light + 0.05) / (dark + 0.05);
}

/** The first background that hides what lies behind it. */
function behind(element) {
    for (let at = element; at; at = at.parentElement) {
        const color = rgba(getComputedStyle(at).backgroundColor);
        if (color[3] === 1) return color;
    }
    return [255, 255, 255, 1];
}

function paleTexts() {
    const found = [];
    const texts = document.createTreeWalker(document.body, NodeFilter.SHOW_TEXT);
    while (texts.nextNode()) {
        const element = texts.currentNode.parentElement;
        const said = texts.currentNode.textContent.trim();
        if (!said || element.closest('script, noscript, option, .skip') || !element.checkVisibility()) continue;
        const style = getComputedStyle(element);
        const size = parseFloat(style.fontSize);
        const least = size >= 24 || (size >= 18.66 && Number(style.fontWeight) >= 700) ? 3 : 4.5;
        const seen = ratio(rgba(element instanceof SVGElement ? style.fill : style.color), behind(element));
        if (seen < least) found.push(`'${said.slice(0, 40)}' has ${seen.toFixed(2)}`);
    }
    return found;
}

function paleEdges() {
    const pale = (element, what, color, ground, least) => {
        const seen = ratio(rgba(color), behind(ground));
        return seen < least ? [`${what} of ${element.id || element.ariaLabel || element.className.baseVal} has ${seen.toFixed(2)}`] : [];
    };
    const all = selector => [...document.querySelectorAll(selector)].filter(element => element.checkVisibility());
    const controls = all('button, .file, select, input[type=text], input[type=number], textarea').flatMap(control => {
        const { borderTopColor, color } = getComputedStyle(control);
        return [...pale(control, 'the edge', borderTopColor, control.parentElement, 3), ...pale(control, 'the text', color, control, 4.5)];
    });
    const lines = all('.chart .ramp-line, .chart .list-line, .chart .rule');
    return [...controls, ...lines.flatMap(line => pale(line, 'the line', getComputedStyle(line).stroke, line.closest('svg'), 3))];
}

export function lowContrast(browser) {
    const functions = [rgba, luminance, ratio, behind, paleTexts, paleEdges].join('\n');
    return browser.ask('POST', '/execute/sync', { script: `${functions}\nreturn [...paleTexts(), ...paleEdges()]`, args: [] });
}
