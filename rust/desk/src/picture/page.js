"use strict";
// Draws each cell anew when its sliders move. Without this script the table and the pictures are all
// there, so nothing is said here that they do not say.
{
    const MIDDLE = [320, 230], RADIUS = 190;
    const cells = JSON.parse(document.getElementById("cells").textContent);

    // The eye is turned about the upright axis, from the south to the east, and then lifted. A place
    // is: to the right, down, near. The cell has one size however it stands, so turning is not growing.
    function places(points, turn, tilt) {
        const [a, b] = [turn, tilt].map(degrees => degrees * Math.PI / 180);
        const [ca, sa, cb, sb] = [Math.cos(a), Math.sin(a), Math.cos(b), Math.sin(b)];
        const scale = RADIUS / Math.max(...points.map(point => Math.hypot(...point)), 1e-9);
        return points.map(([x, y, z]) => [
            MIDDLE[0] + scale * (ca * x + sa * y),
            MIDDLE[1] - scale * (sb * (ca * y - sa * x) + cb * z),
            scale * (cb * (sa * x - ca * y) + sb * z),
        ]);
    }

    const list = spots => spots.map(([x, y]) => x.toFixed(1) + "," + y.toFixed(1)).join(" ");
    const middle = spots => [0, 1, 2].map(k => spots.reduce((sum, spot) => sum + spot[k], 0) / Math.max(spots.length, 1));
    const toward = (part, spot, goal) => spot.map((x, k) => x + part * (goal[k] - x));
    const reach = (spots, k) => Math.max(...spots.map(s => s[k])) - Math.min(...spots.map(s => s[k]));
    const wide = spots => Math.min(reach(spots, 0), 2 * reach(spots, 1));
    const sides = spots => spots.map((spot, k) => [spot, spots[(k + 1) % spots.length]]);

    // A face as it is seen: its middle, places a little within its corners, and how near its plane is.
    function seen(outline) {
        const heart = middle(outline);
        const normal = [0, 1, 2].map(k => sides(outline).reduce((sum, [a, b]) => {
            const [i, j] = [(k + 1) % 3, (k + 2) % 3];
            return sum + (a[i] - b[i]) * (a[j] + b[j] - 2 * heart[j]);
        }, 0));
        // A face that is seen from its side covers nothing.
        const slant = Math.abs(normal[2]) * 1e3 > Math.abs(normal[0]) + Math.abs(normal[1]) ? normal : null;
        const near = ([x, y]) => heart[2] - (slant[0] * (x - heart[0]) + slant[1] * (y - heart[1])) / slant[2];
        const holds = ([x, y]) => sides(outline).filter(([a, b]) => (a[1] > y) !== (b[1] > y)
            && a[0] + (y - a[1]) / (b[1] - a[1]) * (b[0] - a[0]) > x).length % 2 === 1;
        const covers = place => slant !== null && near(place) > place[2] + 0.01 && holds(place);
        return { outline, heart, covers, samples: [heart, ...outline.map(corner => toward(0.1, corner, heart))] };
    }

    // From back to front: after all that it covers, and else the farther first. Where faces are too
    // many for a smooth slider only their middles count.
    function backToFront(faces) {
        const ranks = [...faces].sort((f, g) => f.heart[2] - g.heart[2]);
        if (faces.length > 300) return ranks;
        const begun = new Set(), order = [];
        const paint = face => {
            if (begun.has(face)) return;
            begun.add(face);
            for (const other of ranks) if (!begun.has(other) && other.samples.some(face.covers)) paint(other);
            order.push(face);
        };
        ranks.forEach(paint);
        return order;
    }

    // The ring that a cut left is drawn a little inside, since it shares sides with its face.
    function inset(spots) {
        const goal = middle(spots);
        return spots.map(s => toward(Math.min(5 / Math.max(Math.hypot(goal[0] - s[0], goal[1] - s[1]), 1e-9), 0.3), s, goal));
    }

    // An arrowhead a little beyond the middle, so that two that run against each other are both seen.
    function arrow([a, b]) {
        const length = Math.hypot(b[0] - a[0], b[1] - a[1]), size = Math.min(Math.max(length / 40, 0.6), 1);
        if (length < 14) return "";
        const [dx, dy] = [0, 1].map(k => (b[k] - a[k]) / length * size);
        const [x, y] = [(a[0] + b[0]) / 2 + 3 * dx, (a[1] + b[1]) / 2 + 3 * dy];
        return `<polygon points="${list([[x + 12 * dx, y + 12 * dy], [x - 6.5 * dy, y + 6.5 * dx], [x + 6.5 * dy, y - 6.5 * dx]])}"/>`;
    }

    // The first free place: the spot itself where there is room upon it, else away from the picture's middle.
    function place(spot, width, taken, room) {
        const outward = Math.atan2(spot[1] - MIDDLE[1], spot[0] - MIDDLE[0]);
        const around = [8, 22, 38].flatMap(distance => [0, 1, -1, 2, -2, 3, -3, 4].map(k => {
            const angle = outward + k * Math.PI / 4;
            return [spot[0] + Math.cos(angle) * (distance + width / 2), spot[1] + Math.sin(angle) * (distance + 8)];
        }));
        const free = ([x, y]) => taken.every(t => Math.abs(t[0] - x) * 2 >= t[2] + width || Math.abs(t[1] - y) >= 17);
        const found = (room > width ? [spot, ...around] : around).find(free);
        if (found) taken.push([found[0], found[1], width]);
        return found;
    }

    // What lies at one spot shares a label. One that finds no room could not be read: it is only counted.
    function labels(things, sheet, word, look) {
        const groups = [];
        for (const [spot, number, room] of things) {
            const group = groups.find(g => Math.hypot(g.spot[0] - spot[0], g.spot[1] - spot[1]) < 3);
            if (group) group.numbers.push(number);
            else groups.push({ spot, numbers: [number], room });
        }
        return groups.map(({ spot, numbers, room }) => {
            const more = numbers.length > 4 ? ` +${numbers.length - 4}` : "";
            const text = word + numbers.slice(0, 4).join(", ") + more, width = text.length * 7.2 + 6;
            const at = place(spot, width, sheet.taken, room), frame = word && 'stroke="#222" stroke-width="0.8"';
            if (!at) sheet.left += numbers.length;
            return at ? `<path d="M${spot[0]} ${spot[1]}L${at[0]} ${at[1]}" stroke="#666" stroke-width="0.8"/>
                <rect x="${at[0] - width / 2}" y="${at[1] - 8}" width="${width}" height="16" fill="#fff" fill-opacity="0.85" ${frame}/>
                <text x="${at[0]}" y="${at[1] + 4.5}" text-anchor="middle" ${look}>${text}</text>` : "";
        }).join("");
    }

    function drawn(cell, patterns, turn, tilt) {
        const spots = places(cell.points, turn, tilt), sheet = { taken: [], left: 0 };
        const outline = corners => corners.map(corner => spots[corner]);
        const faces = cell.faces.map(corners => seen(outline(corners)));
        const polygon = (outline, look) => `<polygon points="${list(outline)}" ${look}/>`;
        // Marks stand above all faces, paler where a nearer face covers them.
        const mark = (f, pattern) => polygon(faces[f].outline, `fill-rule="evenodd" fill="url(#${patterns}-${pattern})"
            opacity="${faces.some(other => other.covers(faces[f].heart)) ? 0.45 : 1}"`);
        const torn = cell.torn.map(outline);
        return [
            `<g fill="#fff" fill-opacity="0.6" fill-rule="evenodd" stroke="#222" stroke-width="1.1" stroke-linejoin="round">`,
            ...backToFront(faces).map(face => polygon(face.outline, "")), "</g>",
            ...cell.lone.map(v => `<circle cx="${spots[v][0]}" cy="${spots[v][1]}" r="2.5" fill="#222"/>`),
            ...cell.against.map(f => mark(f, "hatch")), ...cell.short.map(([f]) => mark(f, "dots")),
            ...cell.short.map(([, left]) => polygon(inset(outline(left)),
                'fill="none" stroke="#0b6b3a" stroke-width="2.2" stroke-dasharray="7 4"')),
            `<g stroke="#d0021b" stroke-width="3.6" stroke-linecap="round">`, ...torn.map(side => polygon(side, "")), "</g>",
            `<g fill="#d0021b">`, ...torn.map(arrow), "</g>", `<g font-size="12" font-weight="bold">`,
            labels(cell.marked.map(([f, number]) => [faces[f].heart, number, wide(faces[f].outline)]), sheet, "face ", 'fill="#222"'),
            labels(cell.ends.map(([v, number]) => [spots[v], number, 0]), sheet, "", 'fill="#9c0014"'), "</g>",
            sheet.left ? `<text x="632" y="452" text-anchor="end" font-size="12">no room for ${sheet.left} of the numbers</text>` : "",
        ].join("");
    }

    // A fragment such as #turn=120&tilt=10 says how the cells stand at first.
    const wished = new URLSearchParams(location.hash.slice(1));

    for (const part of document.querySelectorAll(".turned")) {
        const cell = cells[part.dataset.cell], sliders = [...part.querySelectorAll("input")];
        if (!cell) continue;
        const draw = () => {
            for (const slider of sliders) slider.nextElementSibling.value = slider.value + "°";
            part.querySelector("svg").innerHTML = drawn(cell, "c" + part.dataset.cell, ...sliders.map(s => Number(s.value)));
        };
        for (const slider of sliders) {
            if (wished.has(slider.name)) slider.value = wished.get(slider.name);
            slider.addEventListener("input", draw);
        }
        part.hidden = false;
        draw();
    }
}
