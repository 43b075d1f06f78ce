// Elements by their names, and changes of them only where something changes: a page of thousands of numbers is redrawn while
// a stop is dragged.
const SVG = 'http://www.w3.org/2000/svg';

export const $ = id => document.getElementById(id);

export function setText(element, text) {
    if (element.textContent !== text) element.textContent = text;
}

export function setAttributes(element, attributes) {
    for (const [name, value] of Object.entries(attributes)) {
        if (value === null) element.removeAttribute(name);
        else if (element.getAttribute(name) !== String(value)) element.setAttribute(name, value);
    }
    return element;
}

export function make(tag, attributes = {}, ...children) {
    const element = setAttributes(document.createElement(tag), attributes);
    element.append(...children);
    return element;
}

export function makeSvg(tag, attributes = {}, ...children) {
    const element = setAttributes(document.createElementNS(SVG, tag), attributes);
    element.append(...children);
    return element;
}

/** Makes as many children as are asked for, and gives them. */
export function children(parent, count, one) {
    while (parent.children.length > count) parent.lastElementChild.remove();
    while (parent.children.length < count) parent.append(one(parent.children.length));
    return [...parent.children];
}

/** A button that can be reached but does nothing for now: a screen reader still finds it. */
export const enable = (button, isOn) => setAttributes(button, { 'aria-disabled': isOn ? null : 'true' });
export const isEnabled = button => button.getAttribute('aria-disabled') !== 'true';
