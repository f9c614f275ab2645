import java.io.File;
import java.util.List;
import org.jf.dexlib2.DexFileFactory;
import org.jf.dexlib2.Opcodes;
import org.jf.dexlib2.analysis.AnalyzedInstruction;
import org.jf.dexlib2.analysis.ClassPath;
import org.jf.dexlib2.analysis.DexClassProvider;
import org.jf.dexlib2.analysis.MethodAnalyzer;
import org.jf.dexlib2.iface.ClassDef;
import org.jf.dexlib2.iface.DexFile;
import org.jf.dexlib2.iface.Method;

/**
 * What dexlib2's MethodAnalyzer says of each register before each instruction of a file: for the tries of dexasm-lint.
 * A method is a line `M NAME`, an instruction `I REGISTER ..` by dexlib2's numbers of kinds, and a refusal `E`.
 */
public class Registers {
    public static void main(String[] paths) throws Exception {
        DexFile file = DexFileFactory.loadDexFile(new File(paths[0]), Opcodes.forApi(15));
        ClassPath classes = new ClassPath(List.of(new DexClassProvider(file)), false, ClassPath.NOT_ART);
        for (ClassDef one : file.getClasses()) {
            for (Method method : one.getMethods()) {
                if (method.getImplementation() != null) {
                    int registers = method.getImplementation().getRegisterCount();
                    System.out.println("M " + method.getName());
                    tell(new MethodAnalyzer(classes, method, null, false), registers);
                }
            }
        }
    }

    private static void tell(MethodAnalyzer analyzer, int registers) {
        for (AnalyzedInstruction insn : analyzer.getAnalyzedInstructions()) {
            StringBuilder line = new StringBuilder("I");
            for (int register = 0; register < registers; register++) {
                line.append(' ').append(insn.getPreInstructionRegisterType(register).category);
            }
            System.out.println(line);
        }
        if (analyzer.getAnalysisException() != null) {
            System.out.println("E");
        }
    }
}
