"""A change that is written before it is carried out, and a sale that is written behind it: who waits for the disk meanwhile,
and who does not."""

import shutil
import subprocess

from serving.checks import CHECKS
from serving.messages import A, NO_BID, SELL, get, new, number, post, report, request, won_by_a
from serving.program import counts, recovered, running
from serving.workers import WORKERS

# Syncs do not return while the file is there.
HOLDING = r"""
#define _GNU_SOURCE
#include <dlfcn.h>
#include <stdlib.h>
#include <unistd.h>

int fdatasync(int fd) {
    int (*real)(int) = (int (*)(int))dlsym(RTLD_NEXT, "fdatasync");
    const char *path = getenv("RTBX_HOLDS");
    while (path != NULL && access(path, F_OK) == 0) usleep(1000);
    return real(fd);
}
"""
NOT_WANTED = post("/openrtb2/auction", request().replace("news.example", "other.example"))
CHANGED = post("/campaign/1", A.replace("2.50", "3"))


def holding_library(folder):
    """A library that stands before the C library's sync, or none where there is no compiler."""
    compiler = shutil.which("cc") or shutil.which("gcc")
    if compiler is None:
        return None
    source, library = folder / "holding.c", folder / "holding.so"
    source.write_text(HOLDING)
    built = subprocess.run([compiler, "-shared", "-fPIC", "-O1", "-o", library, source, "-ldl"], capture_output=True)
    return library if built.returncode == 0 else None


def try_ahead(program, folder):
    """While the disk holds a change of a campaign, auctions without a sale and reports are answered as before it, and a
    sale waits; then the change is answered, and the sale is of the changed campaign. While it holds a sale, all that comes
    behind that waits."""
    library = holding_library(folder)
    if library is None:
        print("ahead: left out, since there is no compiler")
        return
    journal, switch = folder / "ahead", folder / "holds"
    env = {"LD_PRELOAD": str(library), "RTBX_HOLDS": str(switch)}
    with running(program, journal, workers=WORKERS, env=env) as server:
        with server.link() as editor, server.link() as seller, server.link() as other:
            editor.send(post("/campaign", A))
            CHECKS.same("a campaign", editor.answer(), new(1))
            switch.touch()
            editor.send(CHANGED)
            CHECKS.holds("its change waits for the disk", editor.is_silent())
            for _ in range(100):
                other.send(NOT_WANTED)
                CHECKS.same("an auction without a sale does not", other.answer(), NO_BID)
            other.send(get("/campaign/1"))
            CHECKS.same("a report is that of before", other.answer(), report(1))
            seller.send(SELL)
            CHECKS.holds("a sale waits", seller.is_silent())
            CHECKS.holds("and the change still does", editor.is_silent())
            switch.unlink()
            CHECKS.same("the change", editor.answer(), number(1))
            CHECKS.same("the sale", seller.answer(), won_by_a(1, "0.3"))
            other.send(get("/campaign/1"))
            CHECKS.same("a report is that of behind", other.answer(), report(1, bid="3", reserved="0.0003", held=1))
            switch.touch()
            seller.send(SELL)
            CHECKS.holds("a sale waits for its block", seller.is_silent())
            other.send(NOT_WANTED)
            CHECKS.holds("an auction without a sale waits behind it", other.is_silent())
            editor.send(post("/campaign", A))
            CHECKS.holds("another campaign waits", editor.is_silent())
            switch.unlink()
            CHECKS.same("the second sale", seller.answer(), won_by_a(2, "0.3"))
            CHECKS.same("the auction without one", other.answer(), NO_BID)
            CHECKS.same("the other campaign", editor.answer(), new(2))
            other.send(get("/campaign/1"))
            CHECKS.same("a report has the sale", other.answer(), report(1, bid="3", reserved="0.0006", held=2))
        server.kill()
    CHECKS.same("recover has all", recovered(program, journal), counts(campaigns=2, live=2, sales=2, held=2))
