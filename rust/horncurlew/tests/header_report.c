/* The report of job A by horncurlew.h, on standard output. */
#include "horncurlew.h"

#include <stdio.h>

int main(void) {
    static const uint8_t job[14] = {0x20, 0x20, 0x00, 0x10, 0x10, 0x60, 0x00,
                                    0x00, 0xa0, 0x00, 0x04, 0x81, 0x02, 0x18};
    static uint16_t work[HORNCURLEW_MOST_WORK];
    static uint8_t text[HORNCURLEW_LARGEST_REPORT];

    horncurlew_report_answer report = horncurlew_report(job, sizeof job, work, HORNCURLEW_MOST_WORK, text, 16735);
    if (report.written != 0 || report.length != 0)
        return 1;
    report = horncurlew_report(job, sizeof job, work, HORNCURLEW_MOST_WORK, text, sizeof text);
    fwrite(text, 1, report.length, stdout);
    return report.written != 1;
}
