// A program in C++ with the header: a job without a top file.
#include <btx.h>

#include <cstdio>

int main() {
    const unsigned char job[] = "job", name[] = "job.aux";
    const btx_file absent = {{name, 7}, {name, 0}, false};
    const btx_options options = BTX_OPTIONS;
    unsigned char list[16], log[256];
    btx_report report;
    if (btx_run(job, 3, &absent, 1, &options, list, sizeof list, log, sizeof log, &report) != BTX_DONE) return 1;
    std::printf("%.*s", static_cast<int>(report.log_len), reinterpret_cast<const char *>(log));
    return report.end == BTX_NO_TOP_FILE ? 0 : 1;
}
