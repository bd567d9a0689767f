"""The state that the commands of each page take as given, and the lines that can't be run here, each with its reason. A text that its page doesn't
have any more fails."""

from typing import NamedTuple

CLONE, INSTALLED = "in a clone", "installed"
BOTH = (CLONE, INSTALLED)


class Out(NamedTuple):
    """Why a line isn't run, and by which readers."""

    why: str
    forms: tuple[str, ...] = BOTH


class Span(NamedTuple):
    """How a command within a sentence or a table ends, and words of its notes on standard error."""

    status: int = 0
    says: str = ""


DONE, REFUSED = Span(), Span(says="was refused")


class Scene(NamedTuple):
    """By a text of one block: commands before and after it (`given`, `then`; `$SHOWN` is its output, `$PAGE` the page), and words of its
    notes on standard error (`says`). By a text of any block: the text in its place (`edits`), or why a line that begins with it isn't run
    (`left_out`). `spans`: commands of its sentences and tables, which are run after the blocks; `for_spans`: commands before these.
    `needs`: modules of Python, programs, and the built desk."""

    given: dict[str, str] = {}
    then: dict[str, str] = {}
    says: dict[str, str] = {}
    edits: dict[str, str] = {}
    left_out: dict[str, Out] = {}
    spans: dict[str, Span] = {}
    for_spans: str = ":"
    needs: tuple[str, ...] = ()


AS_ROOT = Out("needs root; tests/packages/run --install installs a package")
OF_A_CLONE = Out("the page says that it is for a clone", (INSTALLED,))
OF_A_PACKAGE = Out("needs a package", (CLONE,))
OF_THE_PACKAGE_PART = Out("takes half an hour; ./check proves, builds and packages")
ORDER = "submit,GAS,UNIT-8,hour,sell,6000,8:500,,"
SERVED = ("aiohttp", "cryptography", "jinja2", "curl", "dam-desk")
# The browser fetches the page, and ends the demo as Ctrl-C does.
DEMO = "dam-office demo 2> ../demo.log || test $? -eq 130"
SAW = 'grep -q "<html" ../page.html'

OFFICE = Scene(
    needs=(*SERVED, "openssl"),
    edits={
        "dam-office demo": DEMO,
        "--port 8443 --tls cert.pem key.pem": "--port $PORT --tls cert.pem key.pem 2> serve.log &",
        "https://auction.example/": "https://localhost:$PORT/",
        '"https://auction.example", token': '"https://localhost:" + os.environ["PORT"], os.environ["TOKEN"]',
        "from dam_tools.office import Office": "import os\nfrom dam_tools.office import Office",
        '"2026-11-29"': 'os.environ["DAY"]',
    },
    given={
        "dam-office serve": r"""
            openssl req -x509 -newkey ec -pkeyopt ec_paramgen_curve:P-256 -nodes -days 2 -subj /CN=localhost \
              -addext subjectAltName=DNS:localhost -keyout key.pem -out cert.pem 2> openssl.log
            printf 'silent\nshow-error\n' > .curlrc
            export SSL_CERT_FILE="$HOME/cert.pem"
            """,
        "dam-audit --best": f"""
            until curl -f https://localhost:$PORT/healthz > /dev/null 2>&1; do kill -0 $!; sleep 0.1; done
            TOKEN=$(dam-office renew office GAS)
            printf 'Authorization: Bearer %s\\n' "$TOKEN" > token.txt
            TYPE='Content-Type: text/csv'
            curl -f -X PUT -H @token.txt -H "$TYPE" --data-binary '{ORDER}' https://localhost:$PORT/days/$DAY/commands/GAS/1
            dam-office status office | grep "$DAY.*open"
            dam-office close office $DAY
            """,
        "curl -f -X PUT": """
            is_open() {
                curl -f https://localhost:$PORT/days | grep -q $DAY && curl -f https://localhost:$PORT/healthz > /dev/null 2>&1
            }
            cd "$HOME"
            dam-office publish office $DAY
            curl -f https://localhost:$PORT/days/$DAY/journal | cmp - office/days/$DAY/journal.csv
            DAY=$(date -d '+3 days' +%F)
            dam-office init office --day $DAY --periods 24 --close 12:00 --participants p.csv
            until is_open; do sleep 0.1; done
            """,
        "receipts/GAS": """
            cp office/operator.pem.pub .
            curl -f -X PUT -H @token.txt -H "$TYPE" --data-binary 'cancel,GAS,UNIT-8,,,,,,' \
              https://localhost:$PORT/days/$DAY/commands/GAS/2 >> GAS.jsonl
            dam-office close office $DAY
            """,
        "from dam_tools.office": """
            DAY=$(date -d '+4 days' +%F)
            dam-office init office --day $DAY --close 12:00 --participants p.csv
            until is_open; do sleep 0.1; done
            export DAY TOKEN
            """,
    },
    spans={
        "dam-office status office": DONE,
        "dam-office renew office GAS": DONE,
        "dam-office revoke office GAS": DONE,
    },
    then={
        "dam-office demo": SAW,
        "curl -f -X PUT": 'grep -q UNIT-8 "$SHOWN" && grep -q \'"reply":"done"\' GAS.jsonl',
        "receipts/GAS": """
            grep -q "^right: 2 receipts" "$SHOWN"
            curl -f -H @token.txt https://localhost:$PORT/days/$DAY/statement/GAS | grep -q '"order": "UNIT-8".*"why": "'
            """,
        "for size in": 'test "$(ls extension-*.json | wc -l)" -ge 2 && grep -q "^right: 2 receipts" "$SHOWN"',
        "from dam_tools.office": f"""
            curl -f -H @token.txt https://localhost:$PORT/days/$DAY/orders/GAS | grep -q UNIT-8
            dam-office revoke office GAS
            ! curl -f -H @token.txt https://localhost:$PORT/days/$DAY/orders/GAS > refused.txt 2>&1
            """,
    },
)

PAGES = {
    "README.md": Scene(
        needs=(*SERVED, "jinja2", "matplotlib", "openpyxl", "numpy"),
        edits={"tools/office demo": DEMO, "/usr/share/doc/dam": "$PREFIX/share/doc/dam"},
        then={"tools/office demo": f'test "$(grep -c ^period "$SHOWN")" -eq 24\n{SAW}'},
        left_out={
            "./dam clear < examples/sunny-day.csv": OF_A_CLONE,
            "tools/office demo": OF_A_CLONE,
            "./check": Out("runs this test"),
            "./dam prove && library/build && tools/package": OF_THE_PACKAGE_PART,
            "apt install ": AS_ROOT,
            "cp -r /usr/share/doc/dam/examples .": OF_A_PACKAGE,
            "tools/audit --best examples/sunny-day.csv tests/cases": OF_A_CLONE,
        },
        for_spans="""
            cp examples/sunny-day.csv day.csv
            grep ,NORD, day.csv > mine.csv
            echo submit,COAL,MORE-19,hour,sell,2000,19:500,, > more.csv
            dam-table --template orders.xlsx
            dam replay < day.csv > replies.txt
            dam-receipts keys operator.pem > key.txt
            dam-receipts seal day.csv replies.txt --day 2026-11-28 --key operator.pem
            cp sealed/receipts/NORD.jsonl .
            cp sealed/head.json HEAD
            cp operator.pem.pub KEY
            """,
        spans={
            "tools/audit --best examples/sunny-day.csv tests/cases/sunny-day.stdout": DONE,
            "dam clear < day.csv > results.txt": DONE,
            "dam-table --journal orders.xlsx": Span(says="has no orders"),
            "dam-table --all day.xlsx day.csv results.txt": REFUSED,
            "dam-lint day.csv": Span(1),
            "dam-report --participant COAL -o coal.html day.csv results.txt": DONE,
            "dam-whatif change day.csv more.csv": DONE,
            "dam-audit --best day.csv results.txt --sent mine.csv --participant NORD": DONE,
            "dam-receipts verify NORD.jsonl --key KEY --head HEAD": DONE,
        },
    ),
    "docs/GUIDE.md": Scene(
        edits={"/usr/share/doc/dam": "$PREFIX/share/doc/dam"},
        left_out={"cp -r /usr/share/doc/dam/examples .": OF_A_PACKAGE},
        needs=("cryptography",),
        given={
            "GAS.jsonl": """
                dam replay < examples/guide/6-rescue.csv > replies.txt
                dam-receipts keys operator.pem > key.txt
                dam-receipts seal examples/guide/6-rescue.csv replies.txt --day 2026-11-28 --key operator.pem
                cp sealed/receipts/GAS.jsonl sealed/head.json .
                grep ,GAS, examples/guide/6-rescue.csv > sent.csv
                """,
        },
        then={"GAS.jsonl": 'grep "^right: .*; as sent: " "$SHOWN"'},
        for_spans="""
            cp examples/guide/6-rescue.csv day.csv
            cp day.csv JOURNAL
            dam clear < JOURNAL > RESULTS
            """,
        spans={
            "cp -r /usr/share/doc/dam/examples .": DONE,
            "tools/lint day.csv": DONE,
            "./dam replay < day.csv": DONE,
            "tools/table --participant GAS JOURNAL RESULTS": DONE,
            "tools/audit JOURNAL RESULTS --sent sent.csv --participant GAS": DONE,
        },
    ),
    "docs/TRUST.md": Scene(
        needs=("cryptography", "numpy"),
        left_out={
            "docs/drawings/draw_trust.py unit-7": OF_A_CLONE,
            "docs/drawings/draw_trust.py selections": OF_A_CLONE,
            "cp tests/cases/sunny-day.stdout": OF_A_CLONE,
        },
        for_spans="mv results.txt printed.txt",
        spans={"cp tests/cases/sunny-day.stdout results.txt": DONE},
    ),
    "docs/AUDIT.md": Scene(
        needs=("numpy", "cryptography"),
        given={
            "for name in": """
                cp examples/auction-day.csv day.csv
                mkdir sent
                cut -s -d, -f2 day.csv | grep '[A-Z]' | sort -u > members.txt
                while read -r name; do grep ",$name," day.csv > "sent/$name.csv"; done < members.txt
                """,
        },
        then={
            # the order of a fictitious name, and the two prices that it leads from and to
            "echo $?": """
                GHOST=$(grep -o 'submit,FAKE,[^`]*' "$PAGE")
                sed "s/^close/$GHOST\\n&/" examples/sunny-day.csv > ghost.csv
                dam clear < ghost.csv > ghost.txt
                grep -q '^period,20,19800,' results.txt
                grep -q '^period,20,10400,' ghost.txt
                grep -q '198.00 to 104.00 EUR/MWh' "$PAGE"
                dam-audit ghost.csv ghost.txt
                """,
            "for name in": 'test "$(grep -c "^as sent: " "$SHOWN")" -eq "$(grep -c . members.txt)"',
        },
        left_out={"cp tests/cases/sunny-day.stdout": OF_A_CLONE},
        for_spans="""
            cp examples/sunny-day.csv day.csv
            grep ,NORD, day.csv > sent.csv
            dam replay < day.csv > replies.txt
            head -n 20 day.csv | dam day > day.txt
            dam-receipts keys operator.pem > key.txt
            dam-receipts seal day.csv replies.txt --day 2026-11-28 --key operator.pem
            cp sealed/head.json sealed/salts.json .
            mkdir days
            cp day.csv days/one.csv
            cp results.txt days/one.txt
            """,
        spans={
            "cp tests/cases/sunny-day.stdout results.txt": DONE,
            "tools/audit day.csv results.txt": DONE,
            "tools/audit day.txt": DONE,
            "tools/audit --replies day.csv replies.txt": DONE,
            "tools/audit day.csv results.txt --sent sent.csv --participant NORD": DONE,
            "tools/audit day.csv results.txt --head head.json --salts salts.json --key operator.pem.pub": DONE,
            "tools/audit --best --days days": DONE,
        },
    ),
    "docs/WHATIF.md": Scene(
        needs=("numpy", "matplotlib"),
        then={"--sample": "test -s blocks.svg"},
        says={"--step": "sampled at 42 limits", "--sample": "COAL UNIT-7 is accepted in 4"},
    ),
    "docs/DESK.md": Scene(
        needs=("dam-desk",),
        given={"dam-desk day.desk": "cp examples/auction-day.csv commands.csv"},
        then={
            "dam-desk day.desk": """
                exec 3>&-
                wait
                dam replay < commands.csv > replies.txt
                head -n -1 answers.txt | cmp - replies.txt
                test "$(tail -n 1 answers.txt)" = day,24
                """,
            "dam-desk --journal day.desk > day.csv": "grep -q ^welfare results.txt",
        },
        spans={"dam-desk --journal day.desk > copy.csv": DONE, "dam-desk new.desk < copy.csv": DONE},
    ),
    "docs/OFFICE.md": OFFICE,
    "docs/OPERATING.md": Scene(
        needs=("numpy", "cryptography", "man", "dpkg-deb", "xz", "flock"),
        edits={"VERSION": "$VERSION", "/srv/dam/": "$HOME/srv/", "/usr/share/doc/dam": "$PREFIX/share/doc/dam"},
        for_spans='cd "$HOME/day"',
        spans={
            "cp -r /usr/share/doc/dam/examples .": DONE,
            "dam-receipts extend sealed day.csv replies.txt --key operator.pem -o later": DONE,
        },
        given={
            "tar -xJf": 'cp "$ARCHIVE" . && BEFORE=$PATH',
            "provenance.json": 'cp "$DEB" FILE.deb',
            "dam-audit --best --json": "cd day",
            "for day in": """
                cd "$HOME"
                mkdir srv && cp -r day srv/2026-11-28
                [ -z "$DEB" ] || cp "$DEB" NEW.deb
                """,
        },
        then={
            "tar -xJf": 'grep -q "dam clear" "$SHOWN" && PATH=$BEFORE',
            "provenance.json": 'grep -q "\\"commit\\": \\"[0-9a-f]*\\"" "$SHOWN"',
            "#!/bin/sh": """
                chmod +x day.sh
                mkdir day
                cp examples/auction-day.csv day/day.csv
                ./day.sh day
                grep -q ^welfare day/results.txt
                """,
            "dam-receipts seal": "test -s sealed/head.json",
            "for day in": 'test ! -s "$SHOWN"',
        },
        left_out={
            "apt-get update && apt-get install ": AS_ROOT,
            "tar -xJf": OF_A_PACKAGE,
            'export PATH="$PWD/dam-VERSION': OF_A_PACKAGE,
            "man dam": OF_A_PACKAGE,
            "dpkg-deb --fsys-tarfile FILE.deb": OF_A_PACKAGE,
            "git checkout COMMIT": OF_THE_PACKAGE_PART,
            "./dam prove && library/build": OF_THE_PACKAGE_PART,
            "tools/package --confirm FILE.deb": Out("needs the kit; tests/packages/run confirms a package"),
            "dpkg-deb -x NEW.deb new": OF_A_PACKAGE,
            "apt-get install ./NEW.deb": AS_ROOT,
            "apt-get install --allow-downgrades": AS_ROOT,
            "cp -r /usr/share/doc/dam/examples .": OF_A_PACKAGE,
        },
    ),
    "docs/USING.md": Scene(
        needs=("numpy", "openpyxl", "jinja2", "matplotlib"),
        given={
            "--participant GAS": "cp examples/auction-day.csv day.csv && dam clear < day.csv > results.txt",
            "xargs": "mkdir days && cp examples/auction-day.csv days/one.csv && cp examples/quarter-hours.csv days/two.csv",
        },
        says={"--template": "orders.xlsx has no orders"},
        then={
            "--template": "grep -q ^welfare results.txt && test -s day.xlsx",
            "--participant GAS": "test -s gas.html && test -s day.html",
        },
        for_spans="cp day.csv JOURNAL && cp results.txt RESULTS",
        spans={"tools/lint day.csv": Span(1), "tools/table --rows blocks JOURNAL RESULTS": REFUSED},
    ),
    "docs/EXAMPLES.md": Scene(
        needs=("matplotlib",),
        then={"sunny-day.svg": "test -s sunny-day.svg"},
        spans={"./dam replay < examples/sunny-day.csv": DONE},
    ),
}
# Pages whose commands other tests run.
ELSEWHERE = {"docs/C.md": "tests/library/run compiles and runs the callers"}
