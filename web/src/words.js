/** The words that the definitions have: written by tools/facts. */

/** The instructions that take no modes. */
export const PLAIN_OPCODES = [
  'BRK', 'JCI', 'JMI', 'JSI',
];

/** The instructions that take modes. */
export const MODED_OPCODES = [
  'LIT', 'INC', 'POP', 'NIP', 'SWP', 'ROT', 'DUP', 'OVR', 'EQU', 'NEQ', 'GTH', 'LTH', 'JMP', 'JCN', 'JSR', 'STH',
  'LDZ', 'STZ', 'LDR', 'STR', 'LDA', 'STA', 'DEI', 'DEO', 'ADD', 'SUB', 'MUL', 'DIV', 'AND', 'ORA', 'EOR', 'SFT',
];

/** The runes of references, for a set of a regular expression. */
export const RUNES = ',_.;=!?-';

/** What each kind of fault of a source or a script means. */
export const MEANINGS = {
  LongSource: 'the source has over 4,194,304 bytes',
  OpenComment: 'the comment is not closed',
  LongWord: 'a word has at most 255 bytes',
  StrayParen: 'no comment is open here',
  BadName: 'this cannot be a name',
  NoName: 'a name is missing',
  IncludeHere: 'an include word is not followed here',
  MacroTwice: 'a macro has this name already',
  MacroBody: "a macro's body stands between { and }, and defines no macro",
  MacroDeep: 'macros use one another at most 32 deep',
  ManyWords: 'macros make over 1,000,000 words',
  BadNumber: 'the digits are lowercase: two or four after #, one to four after | and $',
  StrayBrace: 'no brace is open here',
  OpenBrace: 'the brace is not closed',
  LabelTwice: 'a label has this name already',
  ZeroPage: 'bytes cannot stand below 0100',
  Outside: 'this stands past ffff',
  Rewind: 'bytes stand here already',
  UnknownName: 'no label has this name, and no macro before it',
  TooFar: 'the label is over 127 bytes away',
  IncludePath: "this is no path below the source's folder",
  IncludeMissing: "there is no such file below the source's folder",
  IncludeLong: 'the file has over 4,194,304 bytes',
  IncludeDeep: 'files include one another at most 15 deep',
  IncludeMany: 'at most 256 files are included',
  IncludeLongText: 'all files together have over 4,194,304 bytes',
  Unknown: "the first word is no line of the script's version",
  Missing: 'a value is missing',
  Extra: 'the line has too many words; a comment after a line counts as words',
  BadValue: 'a value is not of its form, or out of its range',
  Late: 'args or clock after an event, or a second args, clock or script',
  ManyEvents: 'with this line there are over 1,000,000 events',
  LongScript: 'at line 1, before all others: over 4,194,304 bytes',
};
