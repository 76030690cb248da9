source_filename = "rattle"

@static.0 = private global [1 x i8] zeroinitializer, align 1
@static.1 = private unnamed_addr constant [2 x i8] c"ab", align 1
define i32 @main() #0 {
  call void @"clap::Command::new"(ptr @static.1)
  call void @"tsc_trace_fast::reader::read_trace"()
  call void @"own"()
  ret i32 0
}

define internal void @"clap::Command::new"(ptr %a0) #0 {
  call void @"clap::inner"()
  ret void
}
define internal void @"clap::inner"() #0 {
  call void @"own"()
  ret void
}
define internal void @"tsc_trace_fast::reader::read_trace"() #0 {
  ret void
}
define internal void @"own"() #0 {
  call void @free(ptr @static.1)
  ret void
}
define internal void @"unused"() #0 {
  ret void
}
declare void @free(ptr)
attributes #0 = { nounwind }
