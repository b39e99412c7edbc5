// A record of a sheet among the others: its place, the way to it from its line, K there, its chain.
import { nest } from "revosti/nest";
import { POINTS_OF, ZERO_IN } from "revosti/parts";
import { edgesOf, standing } from "revosti/standing";

export class Sight {
    constructor(records, lengths, marks, number) {
        Object.assign(this, { records, lengths, marks, number, n: lengths.n, record: records[number - 1] });
        this.places = nest(records);
        this.place = this.places.get(number); // undefined if the nesting does not reach the record
    }

    get(number) {
        return this.records[number - 1];
    }

    // The records whose chains a record lies in, outermost first.
    owners(number) {
        const found = [];
        for (let owner = this.places.get(number).owner; owner; owner = this.places.get(owner).owner) found.unshift(owner);
        return found;
    }

    // The records before a record in its chain, first to last.
    siblings(number) {
        const found = [];
        for (let k = this.places.get(number).before; k; k = this.places.get(k).before) found.unshift(k);
        return found;
    }

    // The records of the chain of a split or a new order, first to last.
    chain(owner) {
        return [...this.places].filter(([, place]) => place.owner === owner).map(([number]) => number);
    }

    // The points that the chain of a new order names, or null if the chain is not in order.
    named(owner) {
        const chain = this.chain(owner), records = chain.map(k => this.get(k)), indexes = [this.get(owner).d, ...records.map(r => r.next)];
        const sound = chain.every(k => this.places.get(k).shaped) && records.every(r => !unwanted(r).length && this.sound(r));
        return sound && String(indexes) === String([...chain, 0]) ? records.map(r => r.a) : null;
    }

    // The records from the line to a record, or null if one of them is not in order.
    way(number) {
        const numbers = [...this.owners(number), number];
        const sound = numbers.every(k => this.places.get(k).shaped && this.sound(this.get(k)));
        return sound ? numbers.map(k => this.get(k)) : null;
    }

    // K once a record's own edge or pair is in it, or null if the way to the record is not in order.
    edges(number) {
        const way = this.way(number);
        return way ? edgesOf(way) : null;
    }

    // Whether a record passes test 11.
    sound(record) {
        return record.a !== record.b && this.points(record).every(([, point]) => 1 <= point && point <= this.n);
    }

    // The points of a record that test 11 looks at, each with its field.
    points(record) {
        return [...(POINTS_OF[record.kind] ?? "")].map(field => [field, record[field]]);
    }

    // The pairs that stand at the split of a record, or null.
    standing(owner) {
        const way = this.way(owner);
        return way ? standing(this.lengths, this.marks, way) : null;
    }
}

// The fields of a record that are to be 0 and are not, each with its name.
export function unwanted(record) {
    return [...ZERO_IN[record.kind]].filter(field => record[field]).map(field => [field, record[field]]);
}
