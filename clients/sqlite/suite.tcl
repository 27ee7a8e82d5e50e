# Runs a file of SQLite's own tests with its databases in a pool: `testfixture suite.tcl TEST`. The commands of Tcl by
# which tests look at databases do so by functions of SQL that suite.c has.

sqlite3 suite_pool :memory:
suite_pool enable_load_extension 1
foreach extension {TOPZERAD_SUITE_EXTENSION TOPZERAD_SUITE_FUNCTIONS} {
    suite_pool eval {select load_extension($::env($extension))}
}

proc suite_size {name} { suite_pool one {select file_size($name)} }
proc suite_read {name at count} { suite_pool one {select file_read($name, $at, $count)} }
proc suite_write {name at bytes} { suite_pool one {select file_write($name, $at, cast(@bytes as blob))} }

# Whether a file is one of the pool: the source of the tests is none.
proc suite_has {name} { expr {[suite_size $name] >= 0} }

proc suite_copy {from to} {
    suite_pool eval {select file_remove($to)}
    suite_write $to 0 ""
    set size [suite_size $from]
    for {set at 0} {$at < $size} {incr at 65536} {
        suite_write $to $at [suite_read $from $at [expr {min(65536, $size - $at)}]]
    }
}

rename file suite_file
proc file {command args} {
    set name [lindex $args end]
    switch -- $command {
        exists { if {[suite_has $name]} { return 1 } }
        size { if {[suite_has $name]} { return [suite_size $name] } }
        delete {
            foreach one $args {
                if {[suite_has $one]} { suite_pool eval {select file_remove($one)} }
            }
        }
        copy {
            set from [lindex $args end-1]
            if {[suite_has $from]} { return [suite_copy $from $name] }
        }
        rename {
            set from [lindex $args end-1]
            if {[suite_has $from]} {
                suite_copy $from $name
                suite_pool eval {select file_remove($from)}
                return
            }
        }
    }
    uplevel 1 [list suite_file $command {*}$args]
}

# What the tests define themselves is replaced once it is there.
proc suite_replace {} {
    proc hexio_read {name at count} { string toupper [binary encode hex [suite_read $name $at $count]] }
    proc hexio_write {name at hex} {
        suite_write $name $at [binary decode hex $hex]
        expr {[string length $hex] / 2}
    }
    proc forcedelete {args} { foreach name $args { file delete -force $name } }
    proc delete_file {args} { foreach name $args { file delete $name } }
    proc copy_file {from to} { file copy $from $to }
    proc forcecopy {from to} { file copy -force $from $to }
}

rename source suite_source
proc source {args} {
    set name [lindex $args end]
    set code [catch {uplevel 1 [list suite_source {*}$args]} result options]
    if {[string match */tester.tcl $name]} { suite_replace }
    return -options $options $result
}

set argv0 [lindex $argv 0]
set argv [lrange $argv 1 end]
source $argv0
