// The records of a text so far, and the chains that a next line can continue, by its indentation.
import { MAX_16, record } from "revosti/parts";
import { say } from "revosti/say";

const FIRST = 6, NEXT = 7; // the fields of the two indexes

export class Chains {
    constructor() {
        this.records = []; // lists of eight numbers, by number from 1
        this.given = []; // for each, the options that the text gives
        this.holds = []; // for each, the word of lines that can be indented under it, or null
        this.lines = []; // for each, its line of text
        this.levels = []; // open chains: indentation, owner (0 for lines), the word of its lines, the last record in it
    }

    get inner() {
        return this.levels[this.levels.length - 1];
    }

    // A record with the next number.
    append(line, numbers, given, holds = null) {
        this.records.push(numbers);
        this.given.push(given);
        this.holds.push(holds);
        this.lines.push(line.number);
    }

    // Finds the chain that a line continues, and holds its first word against that chain; "record" fits any.
    place(line) {
        line.onlyBlanks();
        if (!this.levels.length) this.levels.push({ indent: line.indent, owner: 0, word: "strike", last: 0 });
        if (line.indent > this.inner.indent) this.open(line);
        this.close(line);
        const wanted = this.inner.word, found = line.peek();
        if (found === wanted || found === "record") return;
        const belongs = say(`${found}_belongs`, { indent: this.levels[0].indent });
        line.fail(say("other_word", { wanted, inside: say(`inside_${wanted}`), found, belongs }));
    }

    // Leaves the chains that a line is too far left for.
    close(line) {
        const known = this.levels.map(level => level.indent).join(" or ");
        while (this.levels.length > 1 && line.indent < this.inner.indent) this.levels.pop();
        if (line.indent !== this.inner.indent) line.fail(say("indentation", { known, found: line.indent }));
    }

    // Opens the chain of cases or points of the record just read.
    open(line) {
        const owner = this.inner.last;
        if (!this.holds[owner - 1]) line.fail(say("no_further"));
        this.levels.push({ indent: line.indent, owner, word: this.holds[owner - 1], last: 0 });
    }

    // A member of the chain that `place` has found.
    add(line, numbers, options, holds = null) {
        numbers[FIRST] = options.first ?? numbers[FIRST];
        numbers[NEXT] = options.next ?? numbers[NEXT];
        this.append(line, numbers, options, holds);
        const level = this.inner, number = this.records.length;
        if (level.last) this.link(line, level.last, "next", NEXT, number);
        else if (level.owner) this.link(line, level.owner, "first", FIRST, number);
        level.last = number;
    }

    // The points of the order just read, each a record behind the last.
    addPoints(line, points) {
        let last = this.records.length, word = "first", field = FIRST;
        for (const numbers of points) {
            this.append(line, numbers, {});
            this.link(line, last, word, field, this.records.length);
            [last, word, field] = [this.records.length, "next", NEXT];
        }
    }

    // Lets an index that the text does not give lead to this record.
    link(line, source, word, field, number) {
        if (word in this.given[source - 1]) return;
        if (number > MAX_16) {
            line.at = 0;
            line.fail(say("most_records", { most: MAX_16, number }));
        }
        this.records[source - 1][field] = number;
    }

    finished() {
        return this.records.map(record);
    }
}
