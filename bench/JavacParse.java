import com.sun.source.util.JavacTask;
import java.io.File;
import javax.tools.JavaCompiler;
import javax.tools.StandardJavaFileManager;
import javax.tools.ToolProvider;

/** Prints the least time, in nanoseconds, that the JDK's parser takes for a file, of many runs in one process. */
class JavacParse {
    public static void main(String[] words) throws Exception {
        JavaCompiler compiler = ToolProvider.getSystemJavaCompiler();
        long least = Long.MAX_VALUE;
        for (int run = 0; run < 40; run++) {
            try (StandardJavaFileManager files = compiler.getStandardFileManager(null, null, null)) {
                JavacTask task = (JavacTask) compiler.getTask(null, files, told -> {}, null, null, files.getJavaFileObjects(new File(words[0])));
                long start = System.nanoTime();
                task.parse();
                least = Math.min(least, System.nanoTime() - start);
            }
        }
        System.out.println(least);
    }
}
