/*
 * The surface network of a levelled plot: marks, lines, dales and hills, joins and
 * splits.
 *
 * A plot has rows by columns posts, SN_MIN_SIDE to SN_MAX_SIDE of each. Post
 * number = row * columns + column, both counted from 0 at the top left. A
 * height is a whole number of millimetres, SN_MIN_HEIGHT to SN_MAX_HEIGHT.
 *
 * Height order: a post is below another when its height is less. Equal heights
 * are ordered as driven, to and fro. Of two posts in different rows, the one whose
 * row has the smaller number is below. Of two in one row with an even number (0, 2,
 * ..), the one whose column has the smaller number is below; in a row with an odd
 * number, the one whose column has the greater. The virtual pit lies below every
 * post, outside the border; it is written SN_VIRTUAL_PIT in lists.
 *
 * Edges: the sides of each cell of four posts, one diagonal of the cell, and an
 * edge from each border post to the virtual pit. The diagonal goes through the
 * highest post of the cell (rule 2), or, where the settings sheet that is lent to a
 * call names rule 1, through the lowest (sn_settings). The ring of a post is its
 * neighbours clockwise from north:
 *
 *     NW  N  NE        7 0 1
 *      W  .  E         6 . 2      the virtual pit stands at N in the top row,
 *     SW  S  SE        5 4 3      else at E in the last column, else at S in
 *                                 the bottom row, else at W in the first column
 *
 * A lower run is a longest stretch of the ring, taken as a circle, that lies
 * below the post; an upper run lies above it. Runs of each sort are numbered
 * from 0 by the ring place of their first member, the one whose predecessor is
 * of the other sort. A run that goes on from the ring's last member to N
 * therefore comes last.
 *
 * Spacings: neighbours in one row stand along_row centimetres apart, neighbours in
 * one column along_column, SN_MIN_SPACING to SN_MAX_SPACING each. The squared length
 * of a diagonal is the sum of the two squares. Among neighbours below a post the
 * steepest is the virtual pit where it is one of them, else the one with the greatest
 * drop over the length of its edge, compared exactly; of equal slopes, as between
 * neighbours of the post's own height, the lower one. Among those above it is the
 * one with the greatest rise over that length; of equal slopes the higher one. Marks,
 * rings, joins and splits do not depend on spacings.
 *
 *
 * Rules for every call
 *
 * - Nothing is kept between calls. Every call checks all that it is lent.
 * - A list is a pointer and then its length, counted in entries, not in bytes.
 *   The caller owns it. It is read and written only inside its length, and only
 *   during the call. A pointer may be null only where its length is 0; one that
 *   is not null is aligned for its type.
 * - Lists lent to one call share no memory. This is for the caller to keep. A call
 *   whose lists overlap may write wrong entries, may hang, and may read and write
 *   outside its lists: sn_dales_and_hills with dales laid over heights never returns,
 *   and sn_joins_and_splits with joins laid over heights crashed. The lists that a
 *   call writes are declared restrict (SN_RESTRICT), so that gcc warns (-Wrestrict,
 *   part of -Wall) where it sees one list passed as two.
 * - Threads: there is no state, so any number of calls may run at the same time,
 *   as long as no list that one of them writes is lent to another. Lists that are
 *   only read may be lent to several at once. Whoever re-shoots a plot keeps other
 *   threads from its lists meanwhile.
 * - An accepted call answers code SN_OK, place 0, then its values. A refused one
 *   answers a code from 1 to 15 and its place; every other value is 0, and no
 *   list is changed. Where several refusals hold, the one listed first under the
 *   call is answered. The place is 0 except with SN_HEIGHT_OUT_OF_RANGE.
 *   (sn_version takes nothing, is never refused, and answers a number alone.)
 */
#ifndef SURFACE_NETWORK_H
#define SURFACE_NETWORK_H

#include <stddef.h>
#include <stdint.h>

#ifdef __cplusplus
extern "C" {
#endif

/* Version of this header: three numbers, text, and one number, 40200 for 4.2.0. An
   installation takes it from the first three lines. That of the archive: sn_version. */
#define SN_VERSION_MAJOR 4
#define SN_VERSION_MINOR 2
#define SN_VERSION_PATCH 0
#define SN_VERSION \
    SN_TEXT(SN_VERSION_MAJOR) "." SN_TEXT(SN_VERSION_MINOR) "." SN_TEXT(SN_VERSION_PATCH)
#define SN_VERSION_NUMBER \
    (SN_VERSION_MAJOR * 10000u + SN_VERSION_MINOR * 100u + SN_VERSION_PATCH)

/* Helpers of this header. */
#define SN_TEXT(number) SN_TEXT_OF(number)
#define SN_TEXT_OF(number) #number

#ifdef __cplusplus
#define SN_TO_SIZE(number) static_cast<size_t>(number)
#define SN_NO_BYTES static_cast<const uint8_t *>(0)
#else
#define SN_TO_SIZE(number) ((size_t)(number))
#define SN_NO_BYTES ((const uint8_t *)0)
#endif

/* SN_USE_ANSWER warns of an answer that is not looked at; SN_READS, SN_WRITES and
   SN_CHANGES, by the places of two arguments, of a length beyond its list. */
#if defined(__GNUC__) || defined(__clang__)
#define SN_USE_ANSWER __attribute__((warn_unused_result))
#define SN_INLINE static __inline__
#else
#define SN_USE_ANSWER
#define SN_INLINE static inline
#endif
#ifdef __has_attribute
#if __has_attribute(access)
#define SN_READS(list, length) __attribute__((access(read_only, list, length)))
#define SN_WRITES(list, length) __attribute__((access(write_only, list, length)))
#define SN_CHANGES(list, length) __attribute__((access(read_write, list, length)))
#endif
#endif
#ifndef SN_READS
#define SN_READS(list, length)
#define SN_WRITES(list, length)
#define SN_CHANGES(list, length)
#endif

/* A list that a call writes shares no memory with another of its lists. */
#if defined(__STDC_VERSION__) && __STDC_VERSION__ >= 199901L && !defined(__cplusplus)
#define SN_RESTRICT restrict
#elif defined(__GNUC__) || defined(__clang__)
#define SN_RESTRICT __restrict__
#else
#define SN_RESTRICT
#endif

/* Sizes of a plot. */
#define SN_MIN_SIDE 2
#define SN_MAX_SIDE 120
#define SN_MAX_POSTS 14400 /* SN_MAX_SIDE * SN_MAX_SIDE */

/* Range of a height, in millimetres, and of a filed height, in tenths. */
#define SN_MIN_HEIGHT (-1000000)
#define SN_MAX_HEIGHT 1000000
#define SN_MIN_TENTHS (-10000000)
#define SN_MAX_TENTHS 10000000

/* Range of a spacing, in centimetres. */
#define SN_MIN_SPACING 1
#define SN_MAX_SPACING 1000

/* The virtual pit in lists and answers. */
#define SN_VIRTUAL_PIT 65535

/* No line has more entries: every post once, and the virtual pit. */
#define SN_MAX_LINE 14401

/* Survey files, in bytes, of the version that is written. */
#define SN_FILE_VERSION 2
#define SN_FILE_HEADER 11
#define SN_FILE_SIZE(rows, columns) \
    (SN_FILE_HEADER + 4 * SN_TO_SIZE(rows) * SN_TO_SIZE(columns))
#define SN_MAX_FILE 57611 /* SN_FILE_SIZE(SN_MAX_SIDE, SN_MAX_SIDE) */

/* Files of version 1, which are read too: both their spacings are SN_FILE_SPACING_1. A
   file of either version with SN_FILE_HEADER_1 bytes or more has its sides. */
#define SN_FILE_VERSION_1 1
#define SN_FILE_HEADER_1 7
#define SN_FILE_SPACING_1 100

/* Settings sheets, in bytes: the first that are always there, and the most that a sheet has. */
#define SN_SHEET_VERSION 1
#define SN_SHEET_HEADER 5
#define SN_MAX_SHEET 42
#define SN_MAX_NAME 32

/* The two arguments that stand for a sheet where there is none: sn_survey(SN_NO_SHEET, rows, ..). */
#define SN_NO_SHEET SN_NO_BYTES, 0

/* The bytes of a sheet that names a rule, one of the two constants below, and no more:
   static const uint8_t sheet[] = SN_RULE_SHEET(SN_THROUGH_LOWEST); */
#define SN_RULE_SHEET(rule) {SN_SHEET_VERSION, 0, 0, 0, 3, SN_ENTRY_RULE, 1, (rule)}

/* Kinds of a sheet's entries. */
enum {
    SN_ENTRY_RULE = 1, /* one byte: the rule */
    SN_ENTRY_NAME = 2  /* 1 to SN_MAX_NAME bytes, each 32 to 126: the plot's name */
};

/* Rules: which diagonal cuts a cell. */
enum {
    SN_THROUGH_LOWEST = 1,  /* the one through its lowest post */
    SN_THROUGH_HIGHEST = 2, /* the one through its highest post */
    SN_DEFAULT_RULE = SN_THROUGH_HIGHEST /* where no sheet, or no entry of it, names one */
};

/* Marks, one byte a post. */
enum {
    SN_ORDINARY = 0,
    SN_PEAK = 1,     /* no neighbour is above */
    SN_PIT = 2,      /* no neighbour is below */
    SN_SADDLE_1 = 3, /* two lower runs: multiplicity 1 */
    SN_SADDLE_2 = 4, /* three lower runs: multiplicity 2 */
    SN_SADDLE_3 = 5  /* four lower runs: multiplicity 3 */
};

/*
 * What a survey's mark says. Each evaluates its argument twice.
 *
 * SN_SADDLE_RUNS   how many lower runs a saddle has, and as many upper ones: 2, 3 or
 *                  4. It has a thalweg and a ridge for each run from 0 to one less.
 *                  0 for a mark that is no saddle's: such a post has no lines.
 * SN_MULTIPLICITY  what a saddle adds to sn_counts.saddles: 1, 2 or 3; 0 likewise.
 */
#define SN_IS_SADDLE(mark) ((mark) >= SN_SADDLE_1)
#define SN_SADDLE_RUNS(mark) (SN_IS_SADDLE(mark) ? (mark) - 1u : 0u)
#define SN_MULTIPLICITY(mark) (SN_IS_SADDLE(mark) ? (mark) - 2u : 0u)

/* What sn_ring writes, one byte for each member of a ring: how it stands to the post. */
enum {
    SN_NO_MEMBER = 0, /* past the ring's last member */
    SN_ABOVE_BY_HEIGHT = 1,
    SN_ABOVE_BY_TIE = 2,    /* equal heights, and above in the height order */
    SN_BELOW_BY_HEIGHT = 3, /* the virtual pit too */
    SN_BELOW_BY_TIE = 4     /* equal heights, and below in the height order */
};

/* No ring has more members, and the list that sn_ring writes has exactly so many bytes. */
#define SN_RING_LENGTH 8

/* Codes of answers. */
enum {
    SN_OK = 0,
    SN_BAD_SIDES = 1,           /* rows or columns outside 2 to 120 */
    SN_BAD_HEIGHTS_LENGTH = 2,  /* heights to be read are not rows * columns */
    SN_BAD_LIST_LENGTH = 3,     /* another list is not exactly its size */
    SN_HEIGHT_OUT_OF_RANGE = 4, /* held or filed; place: the first such post */
    SN_NO_SUCH_POST = 5,        /* post not below rows * columns */
    SN_BAD_NEW_HEIGHT = 6,      /* new height outside its range */
    SN_NOT_A_SADDLE = 7,        /* line of a post that is no saddle */
    SN_NO_SUCH_RUN = 8,         /* run not below the post's runs of that sort */
    SN_LINE_TOO_LONG = 9,       /* the line has more entries than its list */
    SN_FILE_TOO_SHORT = 10,     /* file under 7 bytes, or of version 2 under 11 */
    SN_BAD_VERSION = 11,        /* version neither 1 nor 2 */
    SN_BAD_COUNT = 12,          /* stated count is not that of the bytes after
                                   it, or not that of the version and the sides */
    SN_BAD_SHEET = 13,          /* a sheet of 1 to 4 bytes, of another version,
                                   whose count is not that of the bytes after it,
                                   or whose entries do not end where it ends */
    SN_BAD_ENTRY = 14,          /* an entry of a sheet whose kind is unknown or not
                                   above the one before, or whose length or value
                                   is outside its range */
    SN_BAD_SPACING = 15         /* a spacing outside 1 to 1,000 centimetres */
};

/* The code of an answer in words, for a message. Never null; the text lives as long as the program. */
SN_INLINE const char *sn_code_text(uint32_t code)
{
    switch (code) {
    case SN_OK: return "accepted";
    case SN_BAD_SIDES: return "rows or columns are outside 2 to 120";
    case SN_BAD_HEIGHTS_LENGTH: return "the heights are not rows times columns";
    case SN_BAD_LIST_LENGTH: return "a list is not exactly as long as it must be";
    case SN_HEIGHT_OUT_OF_RANGE: return "a height is out of range";
    case SN_NO_SUCH_POST: return "the plot has no such post";
    case SN_BAD_NEW_HEIGHT: return "the new height is out of range";
    case SN_NOT_A_SADDLE: return "the post is no saddle";
    case SN_NO_SUCH_RUN: return "the saddle has no such run";
    case SN_LINE_TOO_LONG: return "the line has more entries than its list";
    case SN_FILE_TOO_SHORT: return "the file has under 7 bytes, or under 11 of version 2";
    case SN_BAD_VERSION: return "the file's version is neither 1 nor 2";
    case SN_BAD_COUNT: return "the file's count does not fit its length, version and sides";
    case SN_BAD_SHEET: return "the settings sheet is damaged or of another version";
    case SN_BAD_ENTRY: return "the settings sheet has an entry that it may not have";
    case SN_BAD_SPACING: return "a spacing is outside 1 to 1,000 centimetres";
    default: return "no such code";
    }
}

/* Answers. All begin with code and place. */
typedef struct sn_answer {
    uint32_t code, place;
} sn_answer;

typedef struct sn_sheet {
    uint32_t code, place;
    uint32_t rule;        /* SN_THROUGH_LOWEST or SN_THROUGH_HIGHEST */
    uint32_t name_length; /* 0 where the sheet has no name */
} sn_sheet;

typedef struct sn_counts {
    uint32_t code, place;
    uint32_t peaks;
    uint32_t pits;    /* the virtual pit included */
    uint32_t saddles; /* summed by multiplicity; where accepted,
                         peaks + pits - saddles = 2 */
} sn_counts;

typedef struct sn_trial_counts {
    uint32_t code, place;
    uint32_t peaks, pits, saddles;             /* now, each as in sn_counts */
    uint32_t new_peaks, new_pits, new_saddles; /* with the new height at its post */
} sn_trial_counts;

typedef struct sn_ring_mark {
    uint32_t code, place;
    uint32_t k;    /* lower runs: 1 at a peak, whose ring is all below, 0 at a pit */
    uint32_t mark; /* what sn_survey writes at the post by the same rule */
} sn_ring_mark;

typedef struct sn_next {
    uint32_t code, place;
    uint32_t post; /* a post, or SN_VIRTUAL_PIT */
} sn_next;

typedef struct sn_entries {
    uint32_t code, place;
    uint32_t count; /* entries written at the front of the list */
} sn_entries;

typedef struct sn_size {
    uint32_t code, place;
    uint32_t rows, columns;
    uint32_t along_row, along_column; /* SN_FILE_SPACING_1 where the file has none */
} sn_size;

/*
 * Version: that of the archive, as one number. SN_VERSION_MATCHES() is 1 where it is
 * that of the header that the program was compiled with, and 0 else. Ask where the
 * program starts: nothing else tells that the two come from different releases.
 */
SN_USE_ANSWER
uint32_t sn_version(void);
#define SN_VERSION_MATCHES() (sn_version() == SN_VERSION_NUMBER)

/*
 * A settings sheet says of a plot which diagonals cut its cells, and its name:
 *
 *     byte 0       version, SN_SHEET_VERSION
 *     bytes 1..4   count of the bytes after these, unsigned, big-endian
 *     then         entries: a byte of kind, a byte of length, and as many bytes of
 *                  value. Kinds rise from entry to entry. Each may be left out.
 *
 * Every call that needs diagonals takes a sheet, as its first list. A sheet of
 * length 0 is no sheet (SN_NO_SHEET). No sheet, and one without SN_ENTRY_RULE, mean
 * SN_DEFAULT_RULE, through the highest posts; whoever wants the other rule names it
 * (SN_RULE_SHEET). A sheet that is refused is refused before anything else that the
 * call checks. Nothing is remembered: calls that belong together, as a survey and its
 * re-shoots, are lent sheets that mean one rule.
 *
 * Settings: what a sheet says.
 *
 * Reads   sheet.
 * Writes  name, exactly SN_MAX_NAME bytes: the name at the front, zeros after.
 * Answers SN_OK with the rule and the length of the name, or in this order
 *   SN_BAD_SHEET
 *   SN_BAD_ENTRY
 *   SN_BAD_LIST_LENGTH      name is not SN_MAX_NAME bytes
 */
SN_USE_ANSWER SN_READS(1, 2) SN_WRITES(3, 4)
sn_sheet sn_settings(const uint8_t *sheet, size_t sheet_length,
                     uint8_t *SN_RESTRICT name, size_t name_length);

/*
 * Survey: marks every post and counts peaks, pits and saddles.
 *
 * Reads   sheet, and heights, rows * columns of them.
 * Writes  marks, as many: every entry.
 * Answers SN_OK, or in this order
 *   SN_BAD_SHEET
 *   SN_BAD_ENTRY
 *   SN_BAD_SIDES
 *   SN_BAD_HEIGHTS_LENGTH
 *   SN_BAD_LIST_LENGTH      marks are not rows * columns
 *   SN_HEIGHT_OUT_OF_RANGE  place: the first such post
 */
SN_USE_ANSWER SN_READS(1, 2) SN_READS(5, 6) SN_WRITES(7, 8)
sn_counts sn_survey(const uint8_t *sheet, size_t sheet_length,
                    uint32_t rows, uint32_t columns,
                    const int32_t *heights, size_t heights_length,
                    uint8_t *SN_RESTRICT marks, size_t marks_length);

/*
 * Re-shoot: puts a new height at one post.
 *
 * Reads   sheet, and heights, rows * columns of them.
 * Writes  heights[post], and afresh the marks of that post and of those that
 *         touch it by side or corner. No other height or mark is touched. If the
 *         marks were those of a survey of the old heights with these rows and
 *         columns and a sheet that means the same rule, they are now those of a
 *         survey of the new ones.
 * Answers SN_OK, or in this order
 *   SN_BAD_SHEET
 *   SN_BAD_ENTRY
 *   SN_BAD_SIDES
 *   SN_BAD_HEIGHTS_LENGTH
 *   SN_BAD_LIST_LENGTH      marks are not rows * columns
 *   SN_HEIGHT_OUT_OF_RANGE  place: the first such post; the old height of the
 *                           post that is re-shot counts
 *   SN_NO_SUCH_POST
 *   SN_BAD_NEW_HEIGHT
 * A height out of range cannot be repaired by a re-shoot, which is refused while
 * there is one, at whatever post: put it right in the list, and survey again.
 */
SN_USE_ANSWER SN_READS(1, 2) SN_CHANGES(5, 6) SN_CHANGES(7, 8)
sn_answer sn_reshoot(const uint8_t *sheet, size_t sheet_length,
                     uint32_t rows, uint32_t columns,
                     int32_t *SN_RESTRICT heights, size_t heights_length,
                     uint8_t *SN_RESTRICT marks, size_t marks_length,
                     uint32_t post, int32_t height);

/*
 * Trial of a re-shoot: what one new height would do. The counts that a survey of the
 * heights gives, and those that it would give with the new height at its post, by the
 * same rule.
 *
 * Only the marks of that post and of those that touch it by side or corner can differ.
 * Peaks move by at most five, pits by at most five, and saddles by the two together:
 * new_saddles - saddles = (new_peaks - peaks) + (new_pits - pits), so by at most ten.
 * The counts are unsigned: a difference of two may need a signed type.
 *
 * Reads   sheet, and heights, rows * columns of them.
 * Writes  nothing.
 * Answers SN_OK with the six counts, or in this order
 *   SN_BAD_SHEET
 *   SN_BAD_ENTRY
 *   SN_BAD_SIDES
 *   SN_BAD_HEIGHTS_LENGTH
 *   SN_HEIGHT_OUT_OF_RANGE  place: the first such post; the old height of the
 *                           post that would be re-shot counts
 *   SN_NO_SUCH_POST
 *   SN_BAD_NEW_HEIGHT
 * A trial is accepted if and only if sn_reshoot with the same arguments and with
 * rows * columns marks is; else both answer the same code and place.
 * Takes about 19 KB of stack.
 */
SN_USE_ANSWER SN_READS(1, 2) SN_READS(5, 6)
sn_trial_counts sn_trial(const uint8_t *sheet, size_t sheet_length,
                         uint32_t rows, uint32_t columns,
                         const int32_t *heights, size_t heights_length,
                         uint32_t post, int32_t height);

/*
 * Ring: the grounds of a post's mark. How each member of its ring stands to it, in the
 * ring's order, with the number of lower runs and the mark.
 *
 * Reads   sheet, and heights, rows * columns of them.
 * Writes  ring, exactly SN_RING_LENGTH bytes: a code for each member from the front,
 *         without gaps, then SN_NO_MEMBER. The codes before it, taken as a circle,
 *         have k runs of SN_BELOW_BY_HEIGHT and SN_BELOW_BY_TIE.
 * Answers SN_OK, or in this order
 *   SN_BAD_SHEET
 *   SN_BAD_ENTRY
 *   SN_BAD_SIDES
 *   SN_BAD_HEIGHTS_LENGTH
 *   SN_BAD_LIST_LENGTH      ring is not SN_RING_LENGTH bytes
 *   SN_HEIGHT_OUT_OF_RANGE  place: the first such post
 *   SN_NO_SUCH_POST
 */
SN_USE_ANSWER SN_READS(1, 2) SN_READS(5, 6) SN_WRITES(8, 9)
sn_ring_mark sn_ring(const uint8_t *sheet, size_t sheet_length,
                     uint32_t rows, uint32_t columns,
                     const int32_t *heights, size_t heights_length,
                     uint32_t post,
                     uint8_t *SN_RESTRICT ring, size_t ring_length);

/*
 * Next down: the steepest neighbour below a post, or the post itself if it is a pit.
 * From a border post that is SN_VIRTUAL_PIT.
 * Next up: the steepest neighbour above it, or the post itself if it is a peak.
 *
 * Reads   sheet, and heights, rows * columns of them.
 * Writes  nothing.
 * Answers SN_OK, or in this order
 *   SN_BAD_SHEET
 *   SN_BAD_ENTRY
 *   SN_BAD_SIDES
 *   SN_BAD_SPACING
 *   SN_BAD_HEIGHTS_LENGTH
 *   SN_HEIGHT_OUT_OF_RANGE  place: the first such post
 *   SN_NO_SUCH_POST
 */
SN_USE_ANSWER SN_READS(1, 2) SN_READS(7, 8)
sn_next sn_next_down(const uint8_t *sheet, size_t sheet_length,
                     uint32_t rows, uint32_t columns,
                     uint32_t along_row, uint32_t along_column,
                     const int32_t *heights, size_t heights_length,
                     uint32_t post);

SN_USE_ANSWER SN_READS(1, 2) SN_READS(7, 8)
sn_next sn_next_up(const uint8_t *sheet, size_t sheet_length,
                   uint32_t rows, uint32_t columns,
                   uint32_t along_row, uint32_t along_column,
                   const int32_t *heights, size_t heights_length,
                   uint32_t post);

/*
 * Thalweg (water line) of a saddle and one of its lower runs: the saddle, the
 * steepest member of the run, which is SN_VIRTUAL_PIT where the run holds it, then
 * next down until a pit, which is the last entry.
 * Ridge (crest line) of a saddle and one of its upper runs: the saddle, the
 * steepest member of the run, then next up until a peak.
 *
 * Reads   sheet, and heights, rows * columns of them.
 * Writes  line[0] to line[count - 1]. Entries from count on keep their content.
 *         The list may have any length; SN_MAX_LINE always suffices.
 * Answers SN_OK, or in this order
 *   SN_BAD_SHEET
 *   SN_BAD_ENTRY
 *   SN_BAD_SIDES
 *   SN_BAD_SPACING
 *   SN_BAD_HEIGHTS_LENGTH
 *   SN_HEIGHT_OUT_OF_RANGE  place: the first such post
 *   SN_NO_SUCH_POST
 *   SN_NOT_A_SADDLE
 *   SN_NO_SUCH_RUN
 *   SN_LINE_TOO_LONG        SN_VIRTUAL_PIT counts as an entry
 */
SN_USE_ANSWER SN_READS(1, 2) SN_READS(7, 8) SN_WRITES(11, 12)
sn_entries sn_thalweg(const uint8_t *sheet, size_t sheet_length,
                      uint32_t rows, uint32_t columns,
                      uint32_t along_row, uint32_t along_column,
                      const int32_t *heights, size_t heights_length,
                      uint32_t post, uint32_t run,
                      uint16_t *SN_RESTRICT line, size_t line_length);

SN_USE_ANSWER SN_READS(1, 2) SN_READS(7, 8) SN_WRITES(11, 12)
sn_entries sn_ridge(const uint8_t *sheet, size_t sheet_length,
                    uint32_t rows, uint32_t columns,
                    uint32_t along_row, uint32_t along_column,
                    const int32_t *heights, size_t heights_length,
                    uint32_t post, uint32_t run,
                    uint16_t *SN_RESTRICT line, size_t line_length);

/*
 * Dales and hills: names for each post the pit at which next down ends, or
 * SN_VIRTUAL_PIT, and the peak at which next up ends.
 *
 * Reads   sheet, and heights, rows * columns of them.
 * Writes  dales and hills, as many each: every entry.
 * Answers SN_OK, or in this order
 *   SN_BAD_SHEET
 *   SN_BAD_ENTRY
 *   SN_BAD_SIDES
 *   SN_BAD_SPACING
 *   SN_BAD_HEIGHTS_LENGTH
 *   SN_BAD_LIST_LENGTH      dales or hills are not rows * columns
 *   SN_HEIGHT_OUT_OF_RANGE  place: the first such post
 */
SN_USE_ANSWER SN_READS(1, 2) SN_READS(7, 8) SN_WRITES(9, 10) SN_WRITES(11, 12)
sn_answer sn_dales_and_hills(const uint8_t *sheet, size_t sheet_length,
                             uint32_t rows, uint32_t columns,
                             uint32_t along_row, uint32_t along_column,
                             const int32_t *heights, size_t heights_length,
                             uint16_t *SN_RESTRICT dales, size_t dales_length,
                             uint16_t *SN_RESTRICT hills, size_t hills_length);

/*
 * Joins and splits: which ground each post joins. Take the posts below it together with
 * the virtual pit: two of these lie in one body where a way along edges between these
 * alone leads from one to the other. The post's joins are the bodies that its lower
 * neighbours lie in, less one, or 0 if it has none. Its splits are the same over the
 * posts above it and its upper neighbours; the virtual pit is never above.
 *
 * Of a saddle both together are its multiplicity (SN_MULTIPLICITY), of every other post
 * both are 0. In a whole plot joins add up to the pits that a survey counts, less one,
 * and splits to the peaks, less one; so both together to its saddles.
 *
 * Reads   sheet, and heights, rows * columns of them.
 * Writes  joins and splits, as many each: every entry, 0 to 3.
 * Answers SN_OK, or in this order
 *   SN_BAD_SHEET
 *   SN_BAD_ENTRY
 *   SN_BAD_SIDES
 *   SN_BAD_HEIGHTS_LENGTH
 *   SN_BAD_LIST_LENGTH      joins or splits are not rows * columns
 *   SN_HEIGHT_OUT_OF_RANGE  place: the first such post
 * A re-shoot does not keep these lists: one new height may change joins and splits far
 * away. Call again.
 * Takes about 90 KB of stack, where sn_trial takes 19 KB and every other call 2 KB at
 * most: mind threads and signal stacks that are small.
 */
SN_USE_ANSWER SN_READS(1, 2) SN_READS(5, 6) SN_WRITES(7, 8) SN_WRITES(9, 10)
sn_answer sn_joins_and_splits(const uint8_t *sheet, size_t sheet_length,
                              uint32_t rows, uint32_t columns,
                              const int32_t *heights, size_t heights_length,
                              uint8_t *SN_RESTRICT joins, size_t joins_length,
                              uint8_t *SN_RESTRICT splits, size_t splits_length);

/*
 * A survey file, which sn_read_survey reads and sn_write_survey writes:
 *
 *     byte 0       version, SN_FILE_VERSION
 *     bytes 1..4   count of the bytes after these, unsigned, big-endian:
 *                  6 + 4 * rows * columns
 *     byte 5       rows
 *     byte 6       columns
 *     bytes 7, 8   spacing along a row in centimetres, unsigned, big-endian
 *     bytes 9, 10  spacing along a column, likewise
 *     then         for each post a signed big-endian 32-bit number of tenths of
 *                  a millimetre, SN_MIN_TENTHS to SN_MAX_TENTHS
 *
 * A file of version SN_FILE_VERSION_1 has no spacings, a count of 2 + 4 * rows *
 * columns, and its heights from byte 7 on. It reads as if both spacings were
 * SN_FILE_SPACING_1.
 *
 * File posts: how many heights to lend to sn_read_survey for this file, rows * columns
 * by its bytes 5 and 6. 0 where the file has fewer than SN_FILE_HEADER_1 bytes, or where
 * bytes 5 and 6 are no plot's sides: sn_read_survey refuses such a file.
 */
SN_READS(1, 2)
SN_INLINE size_t sn_file_posts(const uint8_t *file, size_t file_length)
{
    size_t rows, columns;

    if (file_length < SN_FILE_HEADER_1)
        return 0;
    rows = file[5];
    columns = file[6];
    if (rows < SN_MIN_SIDE || rows > SN_MAX_SIDE || columns < SN_MIN_SIDE || columns > SN_MAX_SIDE)
        return 0;
    return rows * columns;
}

/*
 * Read: rounds to the nearest whole millimetre, a half going to the even one: tenths
 * 5, 15, 25 and -5 become 0, 2, 2 and 0.
 *
 * Reads   file.
 * Writes  heights: every entry. sn_file_posts tells beforehand how many there must be.
 * Answers SN_OK with rows, columns and spacings, or in this order
 *   SN_FILE_TOO_SHORT       under SN_FILE_HEADER_1 bytes
 *   SN_BAD_VERSION
 *   SN_FILE_TOO_SHORT       of version SN_FILE_VERSION under SN_FILE_HEADER bytes
 *   SN_BAD_SIDES
 *   SN_BAD_SPACING
 *   SN_BAD_COUNT
 *   SN_BAD_LIST_LENGTH      heights are not rows * columns
 *   SN_HEIGHT_OUT_OF_RANGE  place: the first such post
 */
SN_USE_ANSWER SN_READS(1, 2) SN_WRITES(3, 4)
sn_size sn_read_survey(const uint8_t *file, size_t file_length,
                       int32_t *SN_RESTRICT heights, size_t heights_length);

/*
 * Write: a file of version SN_FILE_VERSION, which reads back to the same heights and
 * spacings.
 *
 * Reads   heights, rows * columns of them.
 * Writes  file, exactly SN_FILE_SIZE(rows, columns) bytes: every one.
 * Answers SN_OK, or in this order
 *   SN_BAD_SIDES
 *   SN_BAD_SPACING
 *   SN_BAD_HEIGHTS_LENGTH
 *   SN_BAD_LIST_LENGTH      file is not SN_FILE_SIZE(rows, columns)
 *   SN_HEIGHT_OUT_OF_RANGE  place: the first such post
 */
SN_USE_ANSWER SN_READS(5, 6) SN_WRITES(7, 8)
sn_answer sn_write_survey(uint32_t rows, uint32_t columns,
                          uint32_t along_row, uint32_t along_column,
                          const int32_t *heights, size_t heights_length,
                          uint8_t *SN_RESTRICT file, size_t file_length);

#ifdef __cplusplus
}
#endif

#endif
