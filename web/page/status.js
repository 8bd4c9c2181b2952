// What a call answers, by include/inet.h; and of the page alone, where the module breaks off. Not proved.
export const STATUS = { OK: 0, REFUSED: 1, WRONG_NUMBERS: 2, LIMIT: 3, FULL: 4, MEMORY: 5, BROKEN: -1 };
