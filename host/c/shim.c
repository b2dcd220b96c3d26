/* The functions of the header on a machine other than x86-64: `tools/cross` puts this above the code that the toolchain compiled.
   That code writes a reply where its first argument says, as x86-64 passes a struct; other machines pass it in other ways, and a C compiler knows how. */
#include "drive.h"

drive_reply *raw_drive_verdict(drive_reply *reply, const uint8_t *text, uint64_t text_len, uint32_t *work, uint64_t work_len);
drive_reply *raw_drive_cells(drive_reply *reply, const uint8_t *text, uint64_t text_len, uint32_t *work, uint64_t work_len);
drive_reply *raw_drive_owners(drive_reply *reply, const uint8_t *text, uint64_t text_len, uint32_t *work, uint64_t work_len, uint64_t *names,
                              uint64_t names_len);
drive_reply *raw_drive_run(drive_reply *reply, const uint8_t *text, uint64_t text_len, uint32_t *work, uint64_t work_len, int64_t *values,
                           uint64_t values_len, uint8_t *marks, uint64_t marks_len, uint32_t budget);
drive_reply *raw_drive_mark_owners(drive_reply *reply, const uint8_t *text, uint64_t text_len, uint32_t *work, uint64_t work_len, uint64_t *names,
                                   uint64_t names_len);
drive_reply *raw_drive_mark(drive_reply *reply, const uint8_t *text, uint64_t text_len, uint32_t *work, uint64_t work_len, int64_t *values,
                            uint64_t values_len, uint8_t *marks, uint64_t marks_len, uint32_t budget);

drive_reply drive_verdict(const uint8_t *text, uint64_t text_len, uint32_t *work, uint64_t work_len)
{
    drive_reply reply;
    return *raw_drive_verdict(&reply, text, text_len, work, work_len);
}

drive_reply drive_cells(const uint8_t *text, uint64_t text_len, uint32_t *work, uint64_t work_len)
{
    drive_reply reply;
    return *raw_drive_cells(&reply, text, text_len, work, work_len);
}

drive_reply drive_owners(const uint8_t *text, uint64_t text_len, uint32_t *work, uint64_t work_len, uint64_t *names, uint64_t names_len)
{
    drive_reply reply;
    return *raw_drive_owners(&reply, text, text_len, work, work_len, names, names_len);
}

drive_reply drive_run(const uint8_t *text, uint64_t text_len, uint32_t *work, uint64_t work_len, int64_t *values, uint64_t values_len,
                      uint8_t *marks, uint64_t marks_len, uint32_t budget)
{
    drive_reply reply;
    return *raw_drive_run(&reply, text, text_len, work, work_len, values, values_len, marks, marks_len, budget);
}

drive_reply drive_mark_owners(const uint8_t *text, uint64_t text_len, uint32_t *work, uint64_t work_len, uint64_t *names, uint64_t names_len)
{
    drive_reply reply;
    return *raw_drive_mark_owners(&reply, text, text_len, work, work_len, names, names_len);
}

drive_reply drive_mark(const uint8_t *text, uint64_t text_len, uint32_t *work, uint64_t work_len, int64_t *values, uint64_t values_len,
                       uint8_t *marks, uint64_t marks_len, uint32_t budget)
{
    drive_reply reply;
    return *raw_drive_mark(&reply, text, text_len, work, work_len, values, values_len, marks, marks_len, budget);
}
