/* GPC listings over a fitting record: the operations that are open to C.
 *
 * Every promise below holds for all contents of all lent memory, and the library is proved to keep it; only the stack that a call takes
 * is measured, and what is said of time is not proved.
 *
 * Lent memory
 *   - A piece is passed as a pointer and a count of elements. A piece of count 0 may have a null pointer.
 *   - A piece that a call may write (types, sitting, page, work, report) must not overlap any other piece lent to that call.
 *   - A call keeps no pointer, allocates nothing and touches nothing else. The library has no state between calls: what goes from call
 *     to call, a bookmark and a sitting, is the host's. So calls may run side by side on different memory.
 *   - Pieces of 16-bit words are aligned as uint16_t is.
 *   - A call takes less than GPC_STACK_BYTES of stack. That is measured where calls go deepest (four parts of 200 edges, groups two
 *     deep: 664,448 bytes) and not proved.
 *
 * The report
 *   Reported numbers are written into the first 64 bytes of the report area, as eight 64-bit numbers, low byte first. GPC_REPORT_...
 *   below says which number is at which index; [i] stands for the number at index i. Numbers that an operation does not name are 0.
 *   Bytes past the first 64 keep what they held.
 *   With fewer than 64 bytes a call writes nothing anywhere and returns 0, whatever else is wrong with it, and so does gpc_fill_page with
 *   a sitting of fewer than 4; otherwise a call returns 1, also where it refuses.
 */
#ifndef GPC_H
#define GPC_H

#include <stddef.h>
#include <stdint.h>

#ifdef __cplusplus
extern "C" {
#endif

#define GPC_REPORT_BYTES 64    /* a report area */
#define GPC_SITTING_BYTES 4    /* a sitting */
#define GPC_STACK_BYTES 786432 /* a call takes less stack */

/* The numbers of a report by their index. */
#define GPC_REPORT_REFUSAL 0 /* refusal number, GPC_ACCEPTED where the call was not refused */
#define GPC_REPORT_ROW 1     /* row of the refusal, counted from 0; 0 where none is named */
#define GPC_REPORT_VERDICT 2 /* gpc_judge_record: 1 yes, 0 no */
#define GPC_REPORT_RECORDS 2 /* gpc_fill_page: records on the page */
#define GPC_REPORT_WORDS 3   /* gpc_fill_page: words that they take */
#define GPC_REPORT_DONE 4    /* gpc_fill_page: 1 if no later record exists, 0 if one does */
#define GPC_REPORT_NEEDED 5  /* gpc_fill_page, with GPC_PAGE_TOO_SHORT: words that the next record needs */

/* The limits of an image and of a query. */
#define GPC_MOST_NODES 200
#define GPC_MOST_EDGES 200
#define GPC_MOST_LABELS 800      /* label rows */
#define GPC_MOST_PROPERTIES 2000 /* property rows */
#define GPC_MOST_PARTS 4         /* parts of a query */
#define GPC_MOST_ROWS 64         /* rows of a part's pattern */
#define GPC_VARIABLES 8          /* variables are 1 to 8 */
#define GPC_FIRST_NAME 9         /* path names are 9 to 12 */
#define GPC_LAST_NAME 12

/* Refusal numbers of the reader, in the order in which they are tried. */
#define GPC_ACCEPTED 0            /* not refused */
#define GPC_IMAGE_TOO_SHORT 1     /* under 16 bytes */
#define GPC_IMAGE_DIRECTORY 2     /* sections do not follow each other to the image's end, or a length is not whole rows */
#define GPC_IMAGE_TOO_MANY_ROWS 3 /* over 200 nodes, 200 edges, 800 label rows or 2,000 property rows */
#define GPC_IMAGE_BAD_NODE 4      /* an outer number not above the one before */
#define GPC_IMAGE_BAD_EDGE 5      /* an end that is no node, a direction that is neither 0 nor 1, or undirected with the first end above the second */
#define GPC_IMAGE_BAD_LABEL 6     /* an element that is none, label 0, or a pair (element, label) not above the one before */
#define GPC_IMAGE_BAD_PROPERTY 7  /* an element that is none, or a pair (element, key) not above the one before */

/* Reads a graph image and tells whether it is accepted.
 *
 * An image is made of 16-bit numbers, low byte first. Bytes 0 to 15 are four pairs of offset and length in bytes: nodes, edges, labels,
 * properties; the first section begins at byte 16, each next one where the last ended, the last one ends with the image. A node row is
 * the node's outer number, strictly rising. An edge row is first end, second end, direction: 1 directed, 0 undirected with the first
 * end not above the second. A label row is element, label (not 0); a property row is element, key, value; both strictly rise, by
 * (element, label) and by (element, key). Nodes and edges are counted from 0 in row order; with N nodes, element n below N is node n
 * and element N + e is edge e.
 *
 * Writes the report only: [0] is the number of the first cause that holds, 0 if none does.
 * For 4 to 7, [1] is the lowest faulty row of that section, counted from 0; otherwise it is 0.
 * Of two rows out of order the later is faulty. The image is not changed.
 */
uint64_t gpc_read_image(const uint8_t *image, size_t image_bytes, uint8_t *report, size_t report_bytes);

/* A query holds one to four parts, joined. It is lent as 16-bit words: the number of parts; then for each part three words, its
 * restrictor (GPC_TRAIL and so on), its path name (0 for none, else 9 to 12) and the length of its pattern in words; then the patterns,
 * one after another in the order of the parts. So the words are 1 + 3 * parts + the lengths in number.
 *
 * A pattern is a table of five words a row: kind, p, q, r, s. The last row is the whole pattern; rows name lower rows of the same
 * table. Variables are 1 to 8, and those of all parts are the same eight: a variable that two parts use has one value in both, and so
 * joins them. Parts that share none are joined too, each answer of one with each of the other. A path name has the path of its part as
 * value. */

/* Refusal numbers of the checker, beside GPC_ACCEPTED. They are tried in this order: 17; 31; 32; then 11 to 16 of the first part, 11 to
 * 16 of the second and so on; 33. For one part each of 11 to 16 is tried over its whole table before the next. */
#define GPC_TYPES_TOO_SHORT 17    /* a type area of fewer than 72 words */
#define GPC_QUERY_LAYOUT 31       /* no words, no part, over four, or words that are not 1 + 3 * parts + the lengths in number */
#define GPC_QUERY_NAME 32         /* a path name that is neither 0 nor 9 to 12, or one of 9 to 12 that two parts have */
#define GPC_PATTERN_LENGTH 11     /* a pattern of not whole rows of five words, of none, or of over 64 */
#define GPC_PATTERN_MALFORMED 12  /* a kind not listed, a number outside what its kind allows, a named row not lower or of the wrong sort */
#define GPC_PATTERN_NAMING 13     /* a row but the last not named at just one place, or a last row that is a condition */
#define GPC_PATTERN_EDGELESS 14   /* a repetition whose body can match without an edge */
#define GPC_PATTERN_DEPTH 15      /* a third repetition around two */
#define GPC_PATTERN_UNTYPED 16    /* a row to which the typing rules give no type; conditions name variables of their own part */
#define GPC_QUERY_UNTYPED 33      /* a variable of two parts that is not Node in both or Edge in both */

/* The kinds of a table's rows: the first of a row's five words. */
#define GPC_KIND_NODE 1          /* p variable or 0, q label or 0; so for the three edges */
#define GPC_KIND_FORWARD 2       /* a directed edge, from its first end to its second */
#define GPC_KIND_BACKWARD 3      /* a directed edge the other way */
#define GPC_KIND_UNDIRECTED 4    /* an undirected edge, either way */
#define GPC_KIND_UNION 5         /* p and q pattern rows */
#define GPC_KIND_CONCATENATION 6 /* p and q pattern rows */
#define GPC_KIND_CONDITIONED 7   /* p a pattern row, q a condition row */
#define GPC_KIND_REPETITION 8    /* p a pattern row, r least count, s greatest count */
#define GPC_KIND_CONSTANT 16     /* condition: property q of variable p equals r */
#define GPC_KIND_EQUAL 17        /* condition: property q of variable p equals property s of variable r */
#define GPC_KIND_AND 18          /* p and q condition rows; p is looked at only where q is not false */
#define GPC_KIND_OR 19           /* p and q condition rows; p is looked at only where q is not true */
#define GPC_KIND_NOT 20          /* p a condition row */

/* A condition is true, false or unknown, and a match is kept only where it is true. An equality (16, 17) is unknown where a side is
 * absent, also where both are. Not: of unknown it is unknown. And: false where a side is false, true where both are true, else unknown.
 * Or: true where a side is true, false where both are false, else unknown. So neither a comparison nor its negation keeps an element
 * that lacks the property. */

#define GPC_UNBOUNDED 65535 /* a repetition's greatest count: no bound */

/* The restrictors, each part's own. The shortest of a part are found before parts are joined: a shorter path of the part shuts out a
 * longer one with the same ends, also where the shorter one joins nothing. */
#define GPC_TRAIL 1           /* no edge occurs twice in a path */
#define GPC_SIMPLE 2          /* no node occurs twice in a path */
#define GPC_SHORTEST_TRAIL 3  /* of the trails with the same ends that the pattern matches, the shortest */
#define GPC_SHORTEST_SIMPLE 4 /* of the simple paths with the same ends that the pattern matches, the shortest */

#define GPC_TYPE_WORDS 72 /* a type area: six words for each variable, 1 to 8, and each path name, 9 to 12 */

/* The numbers of a type, outermost first, padded with 0 to six words. */
#define GPC_TYPE_NODE 1
#define GPC_TYPE_EDGE 2
#define GPC_TYPE_MAYBE 3 /* Maybe of the type that follows */
#define GPC_TYPE_GROUP 4 /* Group of the type that follows */
#define GPC_TYPE_PATH 5  /* of a path name, and of nothing else */

/* Checks a query and tells the types of its variables and path names.
 *
 * Restrictors are not looked at: the judge and the page do that. The query is not changed.
 * Report: [0] is the number of the first cause that holds, 0 if none does. For 12 to 16, [1] is the lowest row with that fault, counted
 * from 0 in its own part's table, and the part is the first with a fault of 11 to 16: it is not reported, but a query of that part alone
 * is refused by the same number and row. Otherwise [1] is 0.
 * Types: not refused, the first 72 words hold the types of variables 1 to 8 and of path names 9 to 12, six words each: the type of
 * number x begins at word 6 * (x - 1), and is 0 in all six where no part uses x. A variable of two parts has the type that it has in
 * both, a path name GPC_TYPE_PATH.
 * After 11 to 16 and 31 to 33 these 72 words are 0. After 17, and with a report area under 64 bytes, the area is as it was.
 * Words past the first 72 keep what they held, always.
 */
uint64_t gpc_check_query(const uint16_t *query, size_t query_words, uint16_t *types, size_t types_words,
                         uint8_t *report, size_t report_bytes);

/* Refusal numbers of the judge and of the page, tried in this order after those of the image (1 to 7) and of the query (31, 32, 11 to
 * 16 of each part, 33). */
#define GPC_RESTRICTOR 21      /* a part's restrictor that is not 1 to 4 */
#define GPC_WORK_TOO_SHORT 22  /* a work buffer of fewer than 20,000 words */
#define GPC_PAGE_TOO_SHORT 23  /* the next record is longer than the page; only gpc_fill_page */
#define GPC_SITTING_OVERRUN 34 /* the page's count would carry the sitting's total past 4,294,967,295; only gpc_fill_page */

#define GPC_WORK_WORDS 20000        /* a work buffer */
#define GPC_MOST_RECORD_WORDS 19224 /* no record is longer: a page with so much room never gets GPC_PAGE_TOO_SHORT */
#define GPC_NOTHING 65535           /* the word that stands for Nothing in a record */

/* A record, in 16-bit words: a path for each part, in the order of the parts; then for each variable that some part uses, 1 to 8
 * rising, its value, written once however many parts use it; then for each path name used, 9 to 12 rising, the path of its part,
 * written again.
 *   A path is its number of edges, then its nodes and edges, alternating: 2 + 2 * edges words.
 *   A value is the number of a node or an edge; GPC_NOTHING; or, for a group, its count and then for each factor the factor's path,
 *   written like the record's own, and the value in it.
 * Nodes and edges are counted from 0 in the image's order. The number of parts and the types that gpc_check_query tells are all that is
 * needed to find where a record ends. Records are ordered word by word, a proper beginning first; no record begins another, and no two
 * answers have one record. No record is longer than 19,224 words.
 *
 * The listing of an image and a query is the records of all answers, each once, rising. A listing keeps fixed the image and the
 * query's words: its parts, their order, path names, restrictors and patterns. If any of them changes, the listing is another one, and
 * bookmarks of the first mean nothing for it; sitting, page, work and report may differ from call to call. */

/* Judges whether the given words are a record of the listing of an image and a query.
 *
 * Report: [0] and [1] as above for what is refused: 1 to 7; 31; 32; 11 to 16 of each part, in part order; 33; 21; 22. Not refused, [2]
 * is 1 for yes and 0 for no. Words that are no record at all get no. Through 22 the work buffer is as it was; otherwise its first
 * 20,000 words are 0 afterwards, and words past them keep what they held. Image, query and record are not changed.
 */
uint64_t gpc_judge_record(const uint8_t *image, size_t image_bytes, const uint16_t *query, size_t query_words, const uint16_t *record,
                          size_t record_words, uint16_t *work, size_t work_words, uint8_t *report, size_t report_bytes);

/* A sitting counts lines. Its first 4 bytes are the total of all records placed on pages since it was fresh, a 32-bit number, low byte
 * first; a fresh sitting is 0 in all four, and no call is needed to begin one. The host keeps it and lends it to each page call, which
 * raises the total by the records that it places.
 *   - A sitting goes over calls of any listings: image, query and all else may change from call to call. Begun fresh, and each call lent
 *     what the one before left, the total after any calls, refused ones among them, is the sum of the counts [2] in the answers given. A
 *     call that returns 0 gives no answer.
 *   - The calls of one sitting come one after another. Calls that run side by side need sittings of their own, whose totals the host may
 *     add up; or the host lets them in one at a time.
 *   - A total that would pass 4,294,967,295 refuses the page (34). Note the total, set the 4 bytes to 0 and call again with the same
 *     bookmark: no record is lost, and none comes twice.
 *   - A host that needs no total lends 4 bytes that are 0, anew for each call. */

/* Fills a page with the records of the listing that come after a bookmark, in their order, as far as whole records fit.
 *
 * The bookmark is any words; no words stand before every record. Pass the last record of the page before to go on after it: over every
 * list of calls, refused ones among them, and whatever sittings they are lent, the pages then are those of a machine that reads on
 * through the whole listing.
 * Report: [0] and [1] as for the judge; then 23, if the next record is longer than the page; then 34, last. Not refused: [2] records on
 * the page, [3] words that they take, [4] 1 if no later record exists, 0 if one does. With 23, [5] is the words that the next record
 * needs; a page with so much room is not refused by 23.
 * 34: the count of the page as full as it can be, added to the sitting's total, is over 4,294,967,295. The count is not cut to what the
 * total allows, and a page that takes no record never gets 34. All numbers but [0] are then 0.
 * A refusal leaves the page as it was, and so does a page on which no record is placed; words past those reported keep what they held.
 * The sitting: not refused, its first 4 bytes are the total that they were plus [2]. A refusal leaves them. Bytes past the first 4 keep
 * what they held, always. With fewer than 4 bytes the call is as with a report area of fewer than 64: nothing is written, result 0.
 * The work buffer: as for the judge, cleared also after 23 and 34. Image, query and bookmark are not changed.
 * Time: where the total is within page_words of 4,294,967,295, the page's records are searched for first to count them, and then again to
 * place them. Elsewhere they are searched for once, and the sitting costs nothing.
 */
uint64_t gpc_fill_page(const uint8_t *image, size_t image_bytes, const uint16_t *query, size_t query_words, const uint16_t *bookmark,
                       size_t bookmark_words, uint8_t *sitting, size_t sitting_bytes, uint16_t *page, size_t page_words, uint16_t *work,
                       size_t work_words, uint8_t *report, size_t report_bytes);

#ifdef __cplusplus
}
#endif

#endif
