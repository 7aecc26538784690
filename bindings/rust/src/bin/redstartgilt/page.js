"use strict";
(() => {
    const byId = (id) => document.getElementById(id);
    const map = byId("map");
    const cells = Array.from(map.querySelectorAll(".cell"));
    const columns = Number(map.dataset.columns);
    const side = Number(map.dataset.side);
    const rows = cells.length / columns;
    // The cell of the keyboard, also chosen by a click.
    let selected = null;

    const columnOf = (place) => place % columns;
    const rowOf = (place) => Math.floor(place / columns);

    const placeText = (place) => {
        const number = cells[place].dataset.cell;
        const text = `column ${columnOf(place) + 1}, row ${rowOf(place) + 1}`;
        return number === undefined ? text : `${text}, cell ${number}`;
    };

    const spokenText = (place) => {
        const { coverage, variance, deviation, chain, runs } = cells[place].dataset;
        const parts = [`${placeText(place)}: ${coverage}`];
        if (variance !== undefined) {
            parts.push(`variance ${variance}`, `deviation ${deviation ?? "none"}`);
        }
        if (chain !== undefined) {
            parts.push(`chain: ${chain}`);
        }
        if (runs !== undefined) {
            parts.push(runs);
        }
        return parts.join(", ");
    };

    const show = (place) => {
        const data = place === null ? {} : cells[place].dataset;
        const missing = place === null ? "\u2013" : "none";
        byId("place").textContent = place === null ? missing : placeText(place);
        byId("coverage").textContent = data.coverage ?? missing;
        byId("variance").textContent = data.variance ?? missing;
        byId("deviation").textContent = data.deviation ?? missing;
        const onChain = byId("on-chain");
        if (onChain !== null) {
            onChain.textContent = data.chain ?? missing;
        }
        const runs = byId("runs");
        if (runs !== null) {
            runs.textContent = data.runs ?? missing;
        }
    };

    const outline = (name, place) => {
        const frame = byId(name);
        frame.setAttribute("visibility", place === null ? "hidden" : "visible");
        if (place !== null) {
            frame.setAttribute("transform", `translate(${columnOf(place) * side} ${rowOf(place) * side})`);
        }
    };

    // Brings a cell into sight, where the map is wider than its frame with some room for the outline.
    const reveal = (place) => {
        const room = 12;
        const frame = byId("frame");
        cells[place].scrollIntoView({ block: "nearest", inline: "nearest" });
        const [cell, view] = [cells[place].getBoundingClientRect(), frame.getBoundingClientRect()];
        if (cell.left < view.left + room) {
            frame.scrollLeft -= room;
        } else if (cell.right > view.right - room) {
            frame.scrollLeft += room;
        }
    };

    const select = (place) => {
        selected = place;
        outline("selected", place);
        show(place);
        byId("spoken").textContent = spokenText(place);
        reveal(place);
    };

    const placeAt = (event) => {
        const box = map.getBoundingClientRect();
        const column = Math.floor(((event.clientX - box.left) / box.width) * columns);
        const row = Math.floor(((event.clientY - box.top) / box.height) * rows);
        const inside = column >= 0 && column < columns && row >= 0 && row < rows;
        return inside ? row * columns + column : null;
    };

    // Where a key leads, or null for a key that is not the map's.
    const moved = (place, event) => {
        const [column, row] = [columnOf(place), rowOf(place)];
        switch (event.key) {
            case "ArrowLeft":
                return column > 0 ? place - 1 : place;
            case "ArrowRight":
                return column < columns - 1 ? place + 1 : place;
            case "ArrowUp":
                return row > 0 ? place - columns : place;
            case "ArrowDown":
                return row < rows - 1 ? place + columns : place;
            case "Home":
                return event.ctrlKey ? 0 : row * columns;
            case "End":
                return event.ctrlKey ? cells.length - 1 : row * columns + columns - 1;
            default:
                return null;
        }
    };

    map.addEventListener("keydown", (event) => {
        if (event.altKey || event.metaKey) {
            return;
        }
        const place = moved(selected ?? 0, event);
        if (place !== null) {
            event.preventDefault();
            outline("pointed", null);
            select(place);
        }
    });
    map.addEventListener("focus", () => {
        if (selected === null && map.matches(":focus-visible")) {
            select(0);
        }
    });
    map.addEventListener("pointermove", (event) => {
        const place = placeAt(event);
        outline("pointed", place);
        show(place ?? selected);
    });
    map.addEventListener("pointerleave", () => {
        outline("pointed", null);
        show(selected);
    });
    map.addEventListener("click", (event) => {
        const place = placeAt(event);
        if (place !== null) {
            select(place);
        }
    });
    // The cells of the chain, in the order in which they come into it.
    const chain = cells
        .map((cell, place) => [Number(cell.dataset.chainOrder), place])
        .filter(([order]) => !Number.isNaN(order))
        .sort(([one], [other]) => one - other)
        .map(([, place]) => place);
    byId("next-on-chain")?.addEventListener("click", () => {
        select(chain[(chain.indexOf(selected) + 1) % chain.length]);
    });
    byId("next")?.addEventListener("click", () => {
        const from = selected ?? -1;
        for (let step = 1; step <= cells.length; step += 1) {
            const place = (from + step) % cells.length;
            if (cells[place].dataset.coverage === "not computed") {
                select(place);
                return;
            }
        }
    });
})();
