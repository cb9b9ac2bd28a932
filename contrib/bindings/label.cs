using System;
using System.Runtime.InteropServices;
using System.Text;

[StructLayout(LayoutKind.Sequential)]
struct Result { public uint code, at; }

[StructLayout(LayoutKind.Sequential, CharSet = CharSet.Ansi)]
struct Id {
    [MarshalAs(UnmanagedType.ByValTStr, SizeConst = 14)] public string text;
    [MarshalAs(UnmanagedType.ByValArray, SizeConst = 2)] public byte[] service;
    [MarshalAs(UnmanagedType.ByValArray, SizeConst = 2)] public byte[] country;
    public uint serial, group;
}

static class Label {
    [DllImport("libs10.so.0")] static extern Result s10_read_label(byte[] text, UIntPtr len, out Id id);
    [DllImport("libs10.so.0")] static extern void s10_word(uint code, [Out] byte[] word);

    static void Main(string[] words) {
        foreach (string word in words) {
            byte[] text = Encoding.UTF8.GetBytes(word + "\0"); // so that there is a first byte
            byte[] refusal = new byte[16];
            Id id;
            Result result = s10_read_label(text, (UIntPtr)(text.Length - 1), out id);
            s10_word(result.code, refusal);
            if (result.code == 0)
                Console.WriteLine("{0} serial {1:00000000}", id.text, id.serial);
            else
                Console.WriteLine("refused {0} {1}", Encoding.ASCII.GetString(refusal).TrimEnd('\0'), result.at);
        }
    }
}
