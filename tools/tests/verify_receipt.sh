#!/bin/sh
# verify_receipt.sh RECEIPT PUBLIC_KEY: verifies a receipt under its own head, by FORMATS.md and with openssl alone. Prints 'right', with
# the record and the reply, or 'wrong'. It is a second reading of the format: nothing of it is shared with tools/receipts.
#
# It takes one receipt, in its written form. Of the record it checks only that it is printable and has nine fields, the first of which is a
# command, and of a refusal only that its reason is a word. It doesn't check that the reply can be the book's, and compares no other head.
set -eu
export LC_ALL=C
work=$(mktemp -d)
trap 'rm -rf "$work"' EXIT

text() { sed -n 's/.*"'"$1"'":"\([^"]*\)".*/\1/p' "$work/receipt"; }
number() { sed -n 's/.*"'"$1"'":\([0-9]*\)[,}].*/\1/p' "$work/receipt"; }
decoded() { printf '%s\n' "$1" | openssl base64 -d -A; }
hashed() { openssl dgst -sha256 -binary; }
wrong() { echo wrong; exit 1; }
is() { printf '%s\n' "$1" | grep -Eqx -- "$2" && [ "$(printf '%s\n' "$1" | wc -l)" -eq 1 ] || wrong; }
bytes() { decoded "$1" > "$work/bytes" && [ "$(wc -c < "$work/bytes")" -eq "$2" ] && [ "$(openssl base64 -A < "$work/bytes")" = "$1" ] || wrong; }

# The members.
head -c 16385 < "$1" > "$work/receipt"
own=$(number number) record=$(text record) reply=$(text reply) salt=$(text salt)
day=$(text day) periods=$(number periods) size=$(number size) root=$(text root) signature=$(text signature)
is "$own" '[1-9][0-9]{0,4}'
is "$size" '[1-9][0-9]{0,4}'
[ "$own" -le "$size" ] && [ "$size" -le 10000 ] || wrong
is "$periods" '23|24|25|92|96|100'
is "$day" '[0-9A-Za-z._-]{1,32}'
is "$record" '(submit|amend|cancel|close)(,[]!#-+.-[^-~-]*){8}'
is "$reply" 'done|refused,[A-Za-z]+'
bytes "$salt" 32
bytes "$root" 32
bytes "$signature" 64
path= steps=$(sed -n 's/.*"path":\[\([^]]*\)\].*/\1/p' "$work/receipt" | tr -c 'A-Za-z0-9+/=\n' ' ')
for step in $steps; do
    bytes "$step" 32
    path=$path${path:+,}\"$step\"
done

# The written form: these members, and nothing else.
{
    printf '{"format":"dam-receipt-1","number":%s,"record":"%s","reply":"%s","salt":"%s","path":[%s],' "$own" "$record" "$reply" "$salt" "$path"
    printf '"head":{"format":"dam-head-1","day":"%s","periods":%s,"size":%s,' "$day" "$periods" "$size"
    printf '"root":"%s","signature":"%s"}}\n' "$root" "$signature"
} | cmp -s - "$work/receipt" || wrong

# The key: one of Ed25519, and not one for which anybody can sign.
[ "$(grep -c -e '-----BEGIN ' "$2")" -eq 1 ] || wrong
key=$(openssl pkey -pubin -in "$2" -outform DER 2> "$work/said" | od -An -v -tx1 | tr -d ' \n')
is "$key" '302a300506032b6570032100[0-9a-f]{64}'
key=${key#302a300506032b6570032100} first=${key%??}
zeros=00000000000000000000000000000000000000000000000000000000000000
ones=ffffffffffffffffffffffffffffffffffffffffffffffffffffffffffff
case $first$(printf %02x $((0x${key#"$first"} & 127))) in
    00$zeros | 01$zeros | ec${ones}7f | ed${ones}7f | ee${ones}7f | \
    26e8958fc2b227b045c3f489f2ef98f0d5dfac05d3c63339b13802886d53fc05 | \
    c7176a703d4dd84fba3c0b760d10670f2a2053fa2c39ccc64ec7fd7792ac037a) wrong ;;
esac

# The signature of the head.
printf 'dam-head-1\n%s\n%s\n%s\n%s\n' "$day" "$periods" "$size" "$root" > "$work/head"
decoded "$signature" > "$work/signature"
openssl pkeyutl -verify -pubin -inkey "$2" -rawin -in "$work/head" -sigfile "$work/signature" > "$work/said" 2>&1 || wrong

# The leaf, and the way from it to the root.
{ printf '\000'; decoded "$salt"; printf '%s\n%s\n%s\n' "$own" "$record" "$reply"; } | hashed > "$work/at"
node=$((own - 1)) last=$((size - 1))
for step in $steps; do
    [ "$last" -gt 0 ] || wrong
    decoded "$step" > "$work/step"
    if [ $((node % 2)) -eq 1 ] || [ "$node" -eq "$last" ]; then
        { printf '\001'; cat "$work/step" "$work/at"; } | hashed > "$work/next"
        while [ $((node % 2)) -eq 0 ] && [ "$node" -gt 0 ]; do node=$((node / 2)) last=$((last / 2)); done
    else
        { printf '\001'; cat "$work/at" "$work/step"; } | hashed > "$work/next"
    fi
    mv "$work/next" "$work/at"
    node=$((node / 2)) last=$((last / 2))
done
[ "$last" -eq 0 ] && [ "$(openssl base64 -A < "$work/at")" = "$root" ] || wrong
echo "right: $record, $reply"
