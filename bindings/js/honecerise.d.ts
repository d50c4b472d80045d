/**
 * The file store of a running watch, and a copy of it that is taken while the watch goes on recording.
 *
 * The calls are those of a proved library, compiled to WebAssembly; what each does, answers and refuses is in docs/RULES.md.
 * A refused call throws a `Refusal` and has changed nothing, save that `ImageFull` marks the copy stopped. A `TypeError` or
 * `RangeError` says that an argument is not of its type.
 */

/** A number handed in: a whole number from 0 to 2^53 - 1, or a bigint to 2^64 - 1. Numbers are never cut. */
export type Count = number | bigint;

/** A name or a file's bytes: a text goes as UTF-8. */
export type Bytes = Uint8Array | string;

export type Kind = 'file' | 'directory';
export type CopyState = 'idle' | 'running' | 'finished' | 'stopped';

export type RefusalKind =
    | 'BadBuffer'
    | 'UnsoundStore'
    | 'BadDesk'
    | 'IllegalName'
    | 'WrongInode'
    | 'NameAbsent'
    | 'NameTaken'
    | 'NotEmpty'
    | 'PastEnd'
    | 'IntoItself'
    | 'NoInode'
    | 'NoBlocks'
    | 'NoSlot'
    | 'Busy'
    | 'WrongState'
    | 'ImageFull'
    | 'BadCount'
    | 'KindsDiffer'
    | 'BadTurn'
    | 'NoDate'
    | 'BadTerms'
    | 'AfterAsked'
    | 'BadTimes';

/** The number of each refusal. */
export const refusals: Readonly<Record<RefusalKind, number>>;

export class Refusal extends Error {
    constructor(kind: RefusalKind);
    readonly name: 'Refusal';
    readonly kind: RefusalKind;
    readonly number: number;
}

export const ROOT: 1;
export const MAX_INODES: 256;
export const MAX_BLOCKS: 1024;
export const MAX_IMAGE: 4096;
export const MAX_NAME: 14;
export const MAX_FILE: 2752;
export const MAX_SLOTS: 48;
export const MOST_BURST: 64;
export const BAYS: 16;
export const MOST_TURN: 64;
export const MAX_TIMES: 512;
export const MOST_APART: 50;
export const MAX_COPIES: 256;
export const MAX_TERMS: 12;

export function storeLength(inodes: number, blocks: number): number;
export function imageLength(inodes: number, blocks: number): number;
export function deskLength(inodes: number): number;
/** With so many blocks in the image a copy always finishes; from 94 inodes on that is more than `MAX_IMAGE`. */
export function enoughImage(inodes: number): number;
/** A copy is finished, or stopped by `ImageFull`, within so many steps. */
export function mostSteps(inodes: number): number;

export interface Status {
    state: CopyState;
    /** The inode that the copier has locked just now. */
    locked: number | null;
    /** The accepted steps since the latest start. */
    steps: number;
}

/** A directory's entry, and what it names. */
export interface Entry {
    directory: number;
    /** Its place there, counted from 0. */
    slot: number;
    inode: number;
    /** Its name, 1 to 14 bytes. */
    name: Uint8Array;
    /** The name read as UTF-8, for showing; bytes that are none show as U+FFFD. */
    text: string;
    kind: Kind;
    /** In bytes; a directory's is 64 for each block that it has. */
    size: number;
    /** How many entries name the inode. */
    links: number;
}

/** The files and directories of a sound store or finished image, as they were when it was made. */
export class Files {
    private constructor();
    readonly inodes: number;
    readonly blocks: number;
    readonly freeInodes: number;
    readonly freeBlocks: number;
    /** What an inode is; null if it is free or there is none of that number. */
    kind(inode: Count): Kind | null;
    /** A directory's entries in the order of its slots. Refuses with `WrongInode`. */
    entries(directory: Count): Entry[];
    /** All entries, by directory and slot. */
    all(): IterableIterator<Entry>;
    /** The entry of a name, in whatever spelling. */
    find(directory: Count, name: Bytes): Entry | undefined;
    /** A file's bytes. Refuses with `WrongInode`. */
    contents(inode: Count): Uint8Array;
    /** Bytes of a file from `offset` on, at most `length`. Refuses with `WrongInode`, `PastEnd`. */
    read(inode: Count, offset?: Count, length?: Count): Uint8Array;
}

/**
 * A store, the image that copies of it go to, and the copier's desk, in the library's memory. Every call on them, from `lookUp`
 * on, also refuses with `BadBuffer`, `UnsoundStore` and `BadDesk`; `lookUp` and `read` take no desk.
 */
export class Watch {
    private constructor();
    /** Gives the memory back; every other call throws from then on. A watch that nothing holds any more does it by itself. */
    free(): void;
    /** A copy of the bytes, as are the image's and the desk's. */
    store(): Uint8Array;
    image(): Uint8Array;
    desk(): Uint8Array;
    /** What the store holds; null if it is not sound. */
    files(): Files | null;
    /** What the finished copy holds; null while the image is no sound finished one. */
    copy(): Files | null;

    /** Refuses with `IllegalName`, `WrongInode`, `NameAbsent`. */
    lookUp(directory: Count, name: Bytes): number;
    /** Bytes from `offset` on, as many as there are, at most `length`. Refuses with `WrongInode`, `PastEnd`. */
    read(inode: Count, offset?: Count, length?: Count): Uint8Array;

    /** The new inode. Refuses with `IllegalName`, `WrongInode`, `NameTaken`, `NoInode`, `NoBlocks`, `NoSlot`, `Busy`. */
    createFile(directory: Count, name: Bytes): number;
    /** The new inode. Refuses with `IllegalName`, `WrongInode`, `NameTaken`, `NoInode`, `NoBlocks`, `NoSlot`, `Busy`. */
    createDirectory(directory: Count, name: Bytes): number;
    /** The new size. Refuses with `WrongInode`, `PastEnd`, `NoBlocks`, `Busy`. */
    write(inode: Count, offset: Count, bytes: Bytes): number;
    /** The new size. Refuses with `WrongInode`, `PastEnd`, `Busy`. */
    shorten(inode: Count, length: Count): number;
    /** Refuses with `IllegalName`, `WrongInode`, `NameTaken`, `NoBlocks`, `NoSlot`, `Busy`. */
    link(directory: Count, name: Bytes, inode: Count): void;
    /** Refuses with `IllegalName`, `WrongInode`, `NameAbsent`, `NotEmpty`, `Busy`. */
    unlink(directory: Count, name: Bytes): void;
    /**
     * An entry that has the new name is replaced. Refuses with `IllegalName`, `WrongInode`, `NameAbsent`, `NotEmpty`,
     * `IntoItself`, `KindsDiffer`, `NoBlocks`, `NoSlot`, `Busy`.
     */
    rename(directory: Count, name: Bytes, to: Count, toName: Bytes): void;
    /**
     * Replaces nothing. Refuses with `IllegalName`, `WrongInode`, `NameAbsent`, `NameTaken`, `IntoItself`, `NoBlocks`, `NoSlot`,
     * `Busy`.
     */
    renameNew(directory: Count, name: Bytes, to: Count, toName: Bytes): void;

    /** Begins a copy. Refuses with `BadBuffer` for an image that does not fit, and with `WrongState`. */
    start(): void;
    /** The steps so far. Refuses with `WrongState`, and with `ImageFull`, which stops the copy. */
    step(): number;
    /** How many of 1 to 64 steps were accepted. Refuses with `BadCount`, `WrongState`, and with `ImageFull`, which stops it. */
    burst(count: Count): number;
    status(): Status;
}

export interface Turn {
    /** The steps that each bay gets, bay 0 first. */
    counts: number[];
    /** The bay last served, which the next turn is told. */
    last: number;
}

export interface Report {
    /** A watch time and a mat time each. */
    pairs: [watch: number, mat: number][];
    aloneWatch: number[];
    aloneMat: number[];
}

/** A day of the Gregorian calendar; one that does not exist is refused when it is used. */
export interface CalendarDate {
    year: number;
    month: number;
    day: number;
}

export interface Term {
    first: CalendarDate;
    last: CalendarDate;
}

export interface Kept {
    /** How many are kept. */
    count: number;
    /** For each copy, whether it is kept. */
    kept: boolean[];
}

/** The library, loaded. All its watches lie in one memory. */
export class Honecerise {
    private constructor();
    /** How many bytes of the memory watches take. */
    readonly used: number;
    /**
     * An empty store, an idle desk, and room for an image of so many blocks (none: no copy can be started). Refuses with
     * `BadBuffer`.
     */
    layOut(counts: { inodes: Count; blocks: Count; imageBlocks?: Count }): Watch;
    /** A watch over bytes as they stand; they are copied. */
    over(buffers: { store: Uint8Array; image?: Uint8Array; desk: Uint8Array }): Watch;
    /** The files of a sound store, else null. The bytes are copied. */
    filesOfStore(bytes: Uint8Array): Files | null;
    /** The files of a sound finished image, else null: for what came over the air. The bytes are copied. */
    filesOfImage(bytes: Uint8Array): Files | null;
    /** Sixteen flags, bay 0 first. Refuses with `BadTurn`. */
    deal(running: Iterable<boolean>, steps: Count, last: Count): Turn;
    /** Times in hundredths of a second, each list strictly rising. Refuses with `BadTimes`. */
    matchLaps(watch: Iterable<number>, mat: Iterable<number>): Report;
    /** Refuses with `BadBuffer`, `NoDate`, `BadTerms`, `AfterAsked`. */
    keep(copies: Iterable<CalendarDate>, terms: Iterable<Term>, asked: CalendarDate): Kept;
}

/** Loads `honecerise.wasm`, which `targets/build wasm32` writes. */
export function load(
    source: BufferSource | WebAssembly.Module | Response | PromiseLike<BufferSource | WebAssembly.Module | Response>,
): Promise<Honecerise>;
