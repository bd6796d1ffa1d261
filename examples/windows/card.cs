// From C#: the version of gearcard.dll, and the first seconds of the built-in cycle. dotnet run, or csc card.cs, with gearcard.dll beside it.
using System;
using System.Runtime.InteropServices;
struct Verdict { public uint Number; public UIntPtr Place; }
static class Card {
  [DllImport("gearcard")] static extern Verdict gearcard_cycle(uint part, ushort[] room, UIntPtr length);
  static void Main() {
    var speeds = new ushort[1801];
    Console.WriteLine($"refused {gearcard_cycle(0, speeds, (UIntPtr)speeds.Length).Number}, second 20: {speeds[20] / 10.0} km/h");
  }
}
