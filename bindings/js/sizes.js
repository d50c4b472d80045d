// Limits, and the lengths of buffers in bytes.

export const ROOT = 1;
export const MAX_INODES = 256;
export const MAX_BLOCKS = 1024;
export const MAX_IMAGE = 4096;
export const MAX_NAME = 14;
export const MAX_FILE = 2752;
export const MAX_SLOTS = 48;
export const MOST_BURST = 64;
export const BAYS = 16;
export const MOST_TURN = 64;
export const MAX_TIMES = 512;
export const MOST_APART = 50;
export const MAX_COPIES = 256;
export const MAX_TERMS = 12;

export const storeLength = (inodes, blocks) => 16 + 32 * inodes + 64 * blocks;
export const imageLength = (inodes, blocks) => 16 + 32 * inodes + 64 * blocks;
export const deskLength = (inodes) => 16 + 9 * inodes;
/** With so many blocks in the image a copy always finishes; from 94 inodes on that is more than `MAX_IMAGE`. */
export const enoughImage = (inodes) => 44 * inodes;
/** A copy is finished, or stopped by `ImageFull`, within so many steps. */
export const mostSteps = (inodes) => 46 * inodes + 1;
