# Makes the swap of docs/SWAP.md in the published module: -v uses=FILE -v functions=FILE, the page's two pieces of Rust. The text is laid out by rustfmt,
# so an item at the top ends with a brace in column 0, and a function of an impl with one in column 4.

BEGIN {
    while ((getline line < functions) > 0) {
        if (match(line, /^    (pub )?fn [a-z_]+/)) {
            name = substr(line, RSTART, RLENGTH)
            sub(/.* /, "", name)
            wanted++
        }
        body[name] = body[name] line "\n"
        if (line == "    }") name = ""
    }
}

# A derive belongs to the item under it, and goes with it.
/^#\[derive/ { derive = $0; next }

skipping { if ($0 == ending) skipping = 0; next }

/^(const|static) PCH_PIC_/ { constants++; next }
/^use core::sync::atomic/ { next }
/^struct PchPicState / || /^impl Default for PchPicState / || /^pub struct PchPicOutputEvent / || /^fn / {
    items++
    skipping = 1; ending = "}"; derive = ""
    next
}

derive != "" { print derive; derive = "" }

/^use crate::\*;/ {
    print
    while ((getline line < uses) > 0) print line
    places++
    next
}
$0 == "    state: Mutex<PchPicState>," { print "    pic: proved::LoongArchPchPic<IrqSave>,"; places++; next }
$0 == "            state: Mutex::new(PchPicState::default())," {
    print "            pic: proved::LoongArchPchPic::new(base.as_usize().into(), size),"
    places++
    next
}

/^impl LoongArchPchPic / { inside = 1 }
/^}/ { inside = 0 }
inside && match($0, /^    (pub )?fn [a-z_]+/) {
    name = substr($0, RSTART, RLENGTH)
    sub(/.* /, "", name)
    if (name in body) {
        printf "%s", body[name]
        replaced++
        skipping = 1; ending = "    }"
        next
    }
}
{ print }

END {
    if (places == 3 && replaced == 6 && wanted == 6 && items > 20 && constants > 20) exit 0
    printf "swap: the text is not as expected: %d places, %d of %d functions, %d items, %d constants\n", places, replaced, wanted, items, constants > "/dev/stderr"
    exit 1
}
