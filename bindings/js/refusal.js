// Why a call was refused.

/** The number of each refusal, by its name. */
export const refusals = Object.freeze({
    BadBuffer: 1,
    UnsoundStore: 2,
    BadDesk: 3,
    IllegalName: 4,
    WrongInode: 5,
    NameAbsent: 6,
    NameTaken: 7,
    NotEmpty: 8,
    PastEnd: 9,
    IntoItself: 10,
    NoInode: 11,
    NoBlocks: 12,
    NoSlot: 13,
    Busy: 14,
    WrongState: 15,
    ImageFull: 16,
    BadCount: 17,
    KindsDiffer: 18,
    BadTurn: 21,
    NoDate: 23,
    BadTerms: 24,
    AfterAsked: 25,
    BadTimes: 26,
});

const reasons = {
    BadBuffer: 'a buffer has no length or count that is allowed',
    UnsoundStore: 'the store is not sound',
    BadDesk: 'the desk, or the image of the running copy, does not fit',
    IllegalName: 'the name is not legal',
    WrongInode: 'the number is not the file or directory needed',
    NameAbsent: 'there is no entry of that name',
    NameTaken: 'the new name is taken by another entry',
    NotEmpty: 'the directory is not empty',
    PastEnd: 'it lies past the size, or ends past 2752 bytes',
    IntoItself: 'a directory cannot move into itself or below',
    NoInode: 'no inode is free',
    NoBlocks: 'too few blocks are free',
    NoSlot: 'all 48 slots of the directory are used',
    Busy: 'the copier has it locked',
    WrongState: 'a copy runs already, or none does',
    ImageFull: 'the image has no block left',
    BadCount: 'a burst has 1 to 64 steps',
    KindsDiffer: "one name is a file's, the other a directory's",
    BadTurn: 'a turn has 1 to 64 steps, and its last bay is 0 to 15',
    NoDate: 'a date does not exist, or not from 2000 to 2049',
    BadTerms: 'terms share a day, run backwards or are out of order',
    AfterAsked: 'a copy is dated after the day asked',
    BadTimes: 'a list of times has more than 512, or does not rise',
};

const kinds = new Map(Object.entries(refusals).map(([kind, number]) => [number, kind]));

/** A refused call. It has changed nothing, save that `ImageFull` marks the copy stopped. */
export class Refusal extends Error {
    /** @param {string} kind one of the names in `refusals` */
    constructor(kind) {
        super(`${reasons[kind]} (${refusals[kind]})`);
        this.name = 'Refusal';
        this.kind = kind;
        this.number = refusals[kind];
    }
}

/** An answer is the result if it is not negative, else minus the refusal's number. */
export function answered(code) {
    if (code >= 0) return code;
    throw new Refusal(kinds.get(-code));
}
