"""Merging DEX files with dexkit, in shards."""

def _is_ascii(file):
    for letter in file.path.elems():
        if letter > "~":
            return False
    return True

def _merged(ctx, name, files):
    out = ctx.actions.declare_file(name)
    arguments = ctx.actions.args()
    arguments.add("merge")
    arguments.add("--atomic")
    arguments.add("--out", out)

    # The names of the files go into a separate file, one a line: there may be more than a command line takes. Names
    # that are not ASCII go onto the command line, since Bazel 4 writes them wrongly into that file.
    arguments.add_all([file for file in files if not _is_ascii(file)])
    names = ctx.actions.args()
    names.add_all([file for file in files if _is_ascii(file)])
    names.set_param_file_format("multiline")
    names.use_param_file("@%s", use_always = True)
    ctx.actions.run(
        arguments = [arguments, names],
        executable = ctx.executable.dexkit,
        inputs = files,
        mnemonic = "DexMerge",
        outputs = [out],
        progress_message = "Merging " + out.short_path,
    )
    return out

def _dex_merge_impl(ctx):
    files = ctx.files.srcs
    for file in files:
        if file.extension != "dex":
            fail("%s is no .dex file" % file.short_path)

    # A library without classes gives no file, and is left out of what depends on it.
    if not files:
        return [DefaultInfo(files = depset())]

    # The path of a file selects its shard, so a file that is added or removed does not change the other shards.
    shards = {}
    for file in files:
        shards.setdefault(hash(file.short_path) % ctx.attr.shards, []).append(file)
    name = ctx.label.name
    parts = files
    if len(shards) > 1:
        parts = [
            _merged(ctx, "%s.%d.dex" % (name, number), shards[number])
            for number in sorted(shards)
        ]
    return [DefaultInfo(files = depset([_merged(ctx, name + ".dex", parts)]))]

dex_merge = rule(
    doc = "The merged file of all classes of srcs. Each shard is an action of its own, which Bazel caches.",
    implementation = _dex_merge_impl,
    attrs = {
        "dexkit": attr.label(
            allow_single_file = True,
            cfg = "exec",
            default = "//:bin/dexkit",
            executable = True,
        ),
        "shards": attr.int(default = 1),
        # Not [".dex"]: that refuses a library without files.
        "srcs": attr.label_list(allow_files = True, mandatory = True),
    },
)
