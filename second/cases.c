/*
 * Prints the cases that the library is compared with, one to a line.
 *
 *   F2 BLOCK         a block of subframe 2: its data, and behind them the parity that belongs to them
 *   U2 PLACE BLOCK   such a block with some symbols turned, and the first equation that it does not meet, 0000 where it meets all
 *   F3, U3           the same of subframe 3
 *
 * A block is written as 1200 (subframe 2) or 548 (subframe 3) characters 0 or 1, a place as four digits.
 *
 *   FB TOI COUNTS PAGE ANSWER FRAME
 *       Building. The frame, unless it is refused, becomes the base, and its contents the base's contents.
 *   FW COUNTS PAGE FRAME
 *       A frame that no builder makes becomes the base. COUNTS and PAGE are what its bits stand for: what reading subframe 2 or 3
 *       hands back unless it is refused.
 *   FR LENGTH N PLACE VALUE ... READ TIME TOI CORRECTED TWO THREE
 *       Reading the first LENGTH bytes of this: the base frame with N places set, and a 0 behind it. READ is the answer of reading
 *       whole; TIME, TWO and THREE are those of reading the time, subframe 2 and subframe 3 alone. TOI and CORRECTED are what
 *       reading the time gave, zeros where it is refused. A subframe that is not refused holds the base's counts or page bits; a
 *       frame that is not refused holds both, with TOI and CORRECTED.
 *
 *   SW ROOM NUMBERS ANSWER SIZE TEXT
 *       Writing a sheet into ROOM bytes. TEXT is the sheet, with no parts of another, and SIZE its length; nothing and 0 where it
 *       is refused. All other bytes stay. The sheet, unless it is refused, becomes the base text, and NUMBERS the base's numbers.
 *   SR TEXT ANSWER START
 *       Reading the sheet at the end of TEXT. START is the index of its first byte, as the trailer tells, or TEXT's length where it
 *       is refused 10. A sheet that is not refused holds the base's numbers, and the bytes before START are handed back.
 *   SK TEXT PLACE N STEP ...
 *       Walking over TEXT from PLACE on, N steps, each from the place where the one before it goes on. STEP is a digit, 1 where the
 *       walk is finished and 0 else; NUMBERS, zeros where no sheet was read; ANSWER; and the place where it goes on, 4 digits.
 *
 *   PT LENGTH PAGE N PLACE VALUE ... ANSWER RECORD
 *       Taking the first LENGTH bytes of this as a page: PAGE with N places set, and a 0 behind it. RECORD is empty where it is
 *       refused. What is taken is also put back.
 *   PP ROOM RECORD N PLACE VALUE ... ANSWER PAGE
 *       Putting RECORD, with N places set among its bits, into ROOM bytes. PAGE is empty where it is refused; all bytes stay then.
 *       What is put is also taken back.
 *
 *   CH AF0 AF1 AF2 TERM TERM TERM ANSWER
 *       Handing counts out as clock terms, and taking them back. Zeros are handed out on a refusal.
 *   CT TERM TERM TERM AF0 AF1 AF2 ANSWER
 *       Taking clock terms back as counts, and handing them out. Zeros are taken on a refusal.
 *
 *   BF TEXT FRAME
 *       The bench program prints FRAME, as characters, and a newline, where TEXT is its input. FRAME becomes the base frame, and TEXT
 *       the base text.
 *   BN TEXT OUTPUT
 *       The bench program prints OUTPUT, which is no frame, where TEXT is its input.
 *   RB LENGTH N PLACE VALUE ... OUTPUT
 *       Reading back prints OUTPUT, where its input is the first LENGTH bytes of this: the characters of the base frame, a newline
 *       and a character 0, with N places set.
 *
 *   TOI        in FB 5 digits, in FR 3
 *   COUNTS     33 counts in decimal with a space between them, in the order of subframe 2
 *   PAGE       250 characters 0 or 1, or 2 for a byte 2
 *   ANSWER     a refusal's number, 2 digits, a space, and its place, 4 digits; 00 0000 where nothing is refused. So are READ, TIME,
 *              TWO and THREE
 *   FRAME      450 hexadecimal digits, four symbols a digit, the first symbol the most significant; zeros on a refusal
 *   LENGTH     4 digits, in FR 0 to 1801, in PT 0 to 251, in RB 0 to 1802
 *   N          4 digits; but for SK then so many times PLACE, 4 digits, from 0, rising, and VALUE, 3 digits, 0 to 255
 *   CORRECTED  2 digits
 *   NUMBERS    toi's number, a space, and COUNTS
 *   RECORD     PRN and page number, 3 digits each; 1, 6, or 0 for bare bits; the counts of its 17, 30 or no fields, each with a space
 *              behind it; and the 74, no or 236 bits behind them, as characters 0 or 1
 *   TERM       a 64-bit floating number: its bits, 16 hexadecimal digits
 *   AF0 ...    counts in decimal
 *   TEXT       the bytes, at most 8200: byte 10 as |, a space as _, any other from ! to ~ as itself, but \, |, _, @ and all others
 *              as \ and two hexadecimal digits. @FROM,COUNT; is COUNT bytes of the base text, from FROM on, from 0, 4 digits each.
 *              So is OUTPUT
 *   ROOM, SIZE, START and the PLACE of a walk  4 digits
 *
 * A single space stands between the parts of a line, and so on both sides of an empty part.
 */
#include "clock_cases.h"
#include "frame_cases.h"
#include "page_cases.h"
#include "parity_cases.h"
#include "program_cases.h"
#include "sheet_cases.h"

#include <stdio.h>

int main(int count, char **words)
{
    static struct codes codes;
    prepare_codes(&codes, count, words);
    print_parity_cases('2', &codes.two);
    print_parity_cases('3', &codes.three);
    print_frame_cases(&codes);
    print_sheet_cases();
    print_page_cases();
    print_clock_cases();
    print_program_cases(&codes);
    return fflush(stdout) == 0 && !ferror(stdout) ? 0 : 1;
}
