/* The rows of checks/tables/answers.tsv, asked of calls in JavaScript. The head of that table says how a row is spelled. */

const DIALECTS = ["crate", "strict", "newline-delimited"];

/* What the calls give for a row. It stands by itself, since a page takes it as a text. `call(name, ..arguments)` gives what a call gives, and
 * of `parse` a list. */
export async function answered(call, kind, text, dialect) {
    const faults = {
        measurement_value_invalid: "MeasurementValueInvalid",
        field_set_missing: "FieldSetMissing",
        integer_value_invalid: "IntegerValueInvalid",
        uinteger_value_invalid: "UIntegerValueInvalid",
        timestamp_value_invalid: "TimestampValueInvalid",
        ends_with_backslash: "EndsWithBackslash",
        cannot_parse_entire_line: "rest",
        tag_set_malformed: "TagSetMalformed",
        generic_parsing_error: "TakeWhile1",
    };
    const value = it => {
        if (typeof it === "bigint") return `${it}i`;
        if (typeof it === "string") return `S<${it}>`;
        if (typeof it === "boolean") return String(it);
        return it.unsigned !== undefined ? `${it.unsigned}u` : `f<${it.float}>`;
    };
    const item = it => {
        if (it.fault) return faults[it.fault] + (it.side ? ` ${it.side[0].toUpperCase()}${it.side.slice(1)}` : "") + (it.text ? ` <${it.text}>` : "");
        const tags = it.tags.map(([key, other]) => `,S<${key}>=S<${other}>`).join(""), fields = it.fields.map(([key, other]) => ` S<${key}>=${value(other)}`).join("");
        return `S<${it.measurement}>${tags}${fields}${it.timestamp === null ? "" : ` at ${it.timestamp}`}`;
    };
    const options = { dialect, literals: true };
    switch (kind) {
        case "items": return (await call("parse", text, options)).map(item).join("|");
        case "fault": return (await call("parse", text, options))[0].message;
        case "key": return call("seriesKey", (await call("parse", text, options))[0]);
        case "rebuilt": {
            const { batch, carried, refused } = await call("rebuild", text, { dialect });
            return `${carried} of ${carried + refused} <${batch}>`;
        }
        case "run": {
            const { batch, faults: told, refused } = await call("rebuild", text, { dialect });
            return `${refused > 0 ? 1 : 0} <${batch}> <${told}>`;
        }
        case "as_written": {
            const { batch, carried, refused } = await call("rebuild", text, { dialect });
            return String(carried === 1 && refused === 0 && batch === `${text}\n`);
        }
        case "float":
            try {
                return String((await call("write", { measurement: "m", fields: { f: { float: text } } })) === `m f=${text}\n`);
            } catch {
                return "false";
            }
        default: return null;
    }
}

const meant = cell => cell.replace(/\\(.)/g, (_, c) => ({ n: "\n", t: "\t", r: "\r", 0: "\0", "\\": "\\" })[c]);

/* The rows of a table that the calls answer: of each its number, its kind, its text, a dialect, and what is wanted there. */
export function rowsOf(table) {
    const rows = [];
    table.split("\n").forEach((line, at) => {
        if (!line || line.startsWith("#")) return;
        const [kind, text, ...wanted] = line.split("\t");
        if (!["items", "fault", "key", "rebuilt", "run", "as_written", "float"].includes(kind)) return;
        // A text in JavaScript does not say whether it is a copy.
        wanted.forEach((cell, n) => rows.push({ row: at + 1, kind, text: meant(text), dialect: DIALECTS[n], wanted: meant(cell).replaceAll("C<", "S<") }));
    });
    return rows;
}

/* How many answers each kind has, in words. */
export function countsOf(rows) {
    const counts = {};
    for (const { kind } of rows) counts[kind] = (counts[kind] ?? 0) + 1;
    return Object.entries(counts).map(([kind, n]) => `${n} ${kind}`).join(", ");
}
